//! `view words FILE`, `view page FILE -o page.html`, `view page A B -o page.html`; `--module` for the brake module's,
//! `--busiest W` for the busiest stretch.

use std::fs;
use std::io::{self, BufWriter, ErrorKind, Read, Write};
use std::process::exit;

use c::caller::Caller;
use plain_executive::configuration::Configuration;
use plain_executive::line::MOST_BYTES;
use plain_executive::session::lines;
use view::arguments::{self, Task, USAGE};
use view::busiest::{self, Stretch};
use view::names::Names;
use view::page;
use view::progress::Progress;
use view::refusals::configuration_rule;
use view::replay::{Replay, Stop};
use view::turns::Turns;
use view::words::{counted, grouped, Words};

const REFUSED: i32 = 1;
const WRONG: i32 = 2;
const DIFFERS: i32 = 3;

fn main() {
    let arguments = arguments::read(std::env::args().skip(1)).unwrap_or_else(|what| {
        eprint!("view: {what}\n{USAGE}");
        exit(WRONG)
    });
    let names = arguments.names.as_deref().map_or_else(Names::default, read_names);
    let (caller, w) = (arguments.caller, arguments.busiest);
    match arguments.task {
        Task::Help => print!("{USAGE}"),
        Task::Words { file } => print_words(caller, &file, &names, w),
        Task::Page { files, page } => write_page(caller, &files, &names, w, &page),
    }
}

fn stop(status: i32, what: &str) -> ! {
    eprintln!("view: {what}");
    exit(status)
}

fn read_file(file: &str) -> Vec<u8> {
    let mut bytes = Vec::new();
    let read = match file {
        "-" => io::stdin().read_to_end(&mut bytes).map(|_| ()),
        _ => fs::read(file).map(|read| bytes = read),
    };
    read.unwrap_or_else(|error| stop(WRONG, &format!("{file} cannot be read: {error}")));
    bytes
}

fn read_names(file: &str) -> Names {
    let text = String::from_utf8(read_file(file)).unwrap_or_else(|_| stop(WRONG, &format!("{file} is no UTF-8 text")));
    Names::read(&text).unwrap_or_else(|what| stop(WRONG, &format!("{file}: {what}")))
}

/// Ends the program where a session does not begin.
fn begin(caller: Caller, file: &str, input: &[u8]) -> Replay {
    let Some(first) = lines(input).next() else {
        stop(WRONG, &format!("{file} is empty: a session begins with the line of its configuration"))
    };
    Replay::begin(caller, first).unwrap_or_else(|why| match why {
        Stop::Refused(number) => {
            let rule = configuration_rule(first, number);
            stop(
                REFUSED,
                &format!("{file}: line 1, the configuration, is refused with {number}, so the session ends: {rule}"),
            )
        }
        Stop::Differs(what) => stop(DIFFERS, &format!("{file}: line 1: {what}. Report this with the file")),
    })
}

fn check_names(names: &Names, configuration: &Configuration) {
    names.fit(configuration).unwrap_or_else(|what| stop(WRONG, &format!("the names do not fit: {what}")));
}

/// Ends the program where there is no such stretch.
fn busiest(caller: Caller, file: &str, input: &[u8], w: usize) -> Stretch {
    let mut records =
        busiest::records(caller, input).unwrap_or_else(|(line, why)| stop(DIFFERS, &differs(file, line, &why)));
    let found = busiest::of(&mut records, w, c::stretch::busiest);
    found.unwrap_or_else(|why| match why {
        Stop::Refused(number) => {
            let rule = busiest::rule(records.len(), w);
            stop(WRONG, &format!("{file}: --busiest {w} is refused with {number}: {rule}"))
        }
        Stop::Differs(what) => {
            stop(DIFFERS, &format!("{file}: the two implementations differ: {what}. Report this with the file"))
        }
    })
}

/// A reader that goes away is no failure.
fn print_words(caller: Caller, file: &str, names: &Names, w: Option<usize>) {
    let input = read_file(file);
    let first = lines(&input).next().unwrap_or_default();
    if let (false, Err(Stop::Refused(number))) = (input.is_empty(), Replay::begin(caller, first)) {
        println!("0  configuration: refused {number}, {}; the session ends", configuration_rule(first, number));
    }
    let mut replay = begin(caller, file, &input);
    let configuration = replay.other().configuration().clone();
    check_names(names, &configuration);
    let stretch = w.map(|w| busiest(caller, file, &input, w));
    let words = Words { configuration: &configuration, names };
    let mut out = BufWriter::new(io::stdout().lock());
    let (mut progress, mut turns) = (Progress::default(), Turns::default());
    let mut print = |line: &str| match writeln!(out, "{line}") {
        Err(error) if error.kind() == ErrorKind::BrokenPipe => exit(0),
        Err(error) => stop(WRONG, &format!("the words cannot be written: {error}")),
        Ok(()) => {}
    };
    let mut rest = lines(&input);
    print(&words.line(&replay.first(rest.next().unwrap_or_default())));
    for (place, line) in rest.enumerate() {
        let mut room = [0; MOST_BYTES];
        match replay.feed(line, &mut room) {
            Ok(step) => {
                print(&words.line(&step));
                turns.step(&step);
            }
            Err(why) => stop(DIFFERS, &differs(file, place + 2, &why)),
        }
        progress.at(place + 1);
    }
    progress.end();
    let whole = turns.lines(&words).into_iter().chain(stretch.map(|stretch| stretch.line()));
    for (place, line) in whole.enumerate() {
        if place == 0 {
            print("");
        }
        print(&line);
    }
    if let Err(error) = out.flush() {
        if error.kind() != ErrorKind::BrokenPipe {
            stop(WRONG, &format!("the words cannot be written: {error}"));
        }
    }
}

fn differs(file: &str, line: usize, why: &Stop) -> String {
    format!("{file}: line {line}: the two implementations differ: {why:?}. Report this with the file")
}

fn write_page(caller: Caller, files: &[String], names: &Names, w: Option<usize>, page: &str) {
    let inputs: Vec<Vec<u8>> = files.iter().map(|file| read_file(file)).collect();
    for (file, input) in files.iter().zip(&inputs) {
        let replay = begin(caller, file, input);
        check_names(names, replay.other().configuration());
    }
    let sessions: Vec<(&str, &[u8])> = files.iter().map(String::as_str).zip(inputs.iter().map(Vec::as_slice)).collect();
    let stretch = |(file, input): &(&str, &[u8])| Some(busiest(caller, file, input, w?));
    let stretches: Vec<Stretch> = sessions.iter().filter_map(stretch).collect();
    let made = page::make(caller, &sessions, names, &stretches).unwrap_or_else(|(file, line, why)| {
        stop(DIFFERS, &format!("{}. No page is written", differs(&file, line, &why)))
    });
    fs::write(page, &made.html).unwrap_or_else(|error| stop(WRONG, &format!("{page} cannot be written: {error}")));
    let frames = grouped(made.frames);
    eprintln!("view: {page} has {frames} frames in {}: open it in a browser", counted(made.html.len(), "byte"));
}
