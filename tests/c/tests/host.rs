//! host/ and docs/HOST.md: the header compiles as C and C++ and leads to the archive's functions, the controller's and the module's;
//! its sizes, limits, codes, outcomes and numbers are the paper's, and the pages'; the examples print what is stored.

mod tools;

use c::caller::Caller;
use c::for_each_caller;
use c::starts::NO_START;
use plain_executive::configuration::MOST_PAIRS;
use plain_executive::generator::Generator;
use plain_executive::limits::Limits;
use plain_executive::line::{MOST_BYTES, MOST_DIGITS};
use plain_executive::starts::{LONGEST_CYCLE, MOST_CYCLES};
use plain_executive::stretch::MOST_RECORDS;
use plain_executive::tasks::SLOT_BYTES;
use std::fs;
use std::process::Command;
use tools::{
    answers, built, copied, frames_of, languages, of_caller, printed, repository, run, scratch, stories, text,
};

for_each_caller!(
    every_language_replays_the_stories_and_random_sessions,
    the_struct_has_the_blocks,
    the_pages_have_the_sizes_and_limits,
);

// ---- the header

fn every_language_replays_the_stories_and_random_sessions(caller: Caller) {
    let folder = scratch(&format!("replay {caller:?}"));
    let random = |seed: u64| Generator::within(caller.limits(), seed).script(1..=20, 200).lines();
    let mut sessions: Vec<(String, Vec<u8>)> = (0..20)
        .map(|seed| (format!("seed {seed}"), random(seed)))
        .chain([("a refused configuration".to_string(), b"00\n".to_vec())])
        .chain([("17 tasks".to_string(), format!("11000000000100010{}\n", "0".repeat(33)).into_bytes())])
        .collect();
    sessions.extend(stories().into_iter().map(|story| (story.clone(), frames_of(&story))));
    for language in languages() {
        let program = built(&folder, "replay.c", language, of_caller(caller));
        for (name, input) in &sessions {
            let told = printed(&mut Command::new(&program), input);
            assert_eq!(told.as_bytes(), answers(caller, input), "{language:?}: {name}");
        }
    }
}

/// The names and values of the lines that look like `before NAME middle VALUE behind`.
fn named(source: &str, before: &str, middle: &str, behind: char) -> Vec<(String, u32)> {
    let line = |line: &str| {
        let (name, value) = line.trim().strip_prefix(before)?.split_once(middle)?;
        let value = value.split(behind).next()?.trim();
        let value = match value.strip_prefix("0x") {
            Some(digits) => u32::from_str_radix(digits, 16),
            None => value.parse(),
        };
        Some((name.to_string(), value.ok()?))
    };
    source.lines().filter_map(line).collect()
}

fn constants(file: &str, kind: &str) -> Vec<(String, u32)> {
    let found = named(&text(file), "pub const ", &format!(": {kind} = "), ';');
    assert!(!found.is_empty(), "{file}");
    found
}

/// The enumerators of the header's enum, without what their names begin with.
fn enumerators(name: &str, before: &str) -> Vec<(String, u32)> {
    let header = text("host/mcx11.h");
    let from = header.find(&format!("enum mcx11_{name} {{")).unwrap_or_else(|| panic!("no enum {name}"));
    let body = header[from..].split("};").next().unwrap().replace(" /*", ", /*");
    named(&body, before, " = ", ',')
}

#[test]
fn codes_outcomes_and_numbers_are_the_papers() {
    assert_eq!(enumerators("code", "MCX11_"), constants("tests/src/command.rs", "u8"));
    assert_eq!(enumerators("outcome_kind", "MCX11_OUTCOME_"), constants("tests/src/answer.rs", "u8"));
    let with_prefix = numbers().into_iter().map(|(name, number)| (format!("NUMBER_{name}"), number));
    let all: Vec<_> = [("ACCEPTED".to_string(), 0)].into_iter().chain(with_prefix).collect();
    assert_eq!(enumerators("number", "MCX11_"), all);
}

fn numbers() -> Vec<(String, u32)> {
    constants("tests/src/numbers.rs", "Number")
}

const BLOCKS: [&str; 5] = ["config", "tables", "slots", "timers", "answer"];

/// What a caller's names begin with, behind MCX11_ or mcx11_.
fn family(caller: Caller) -> &'static str {
    match caller {
        Caller::Controller => "",
        Caller::Module => "module_",
    }
}

/// The names of a caller's constants, each with its number.
fn constants_of(caller: Caller, before: &str, names: [&str; 5], behind: &str, numbers: [u32; 5]) -> Vec<(String, u32)> {
    let name = |name: &str| format!("{}{before}{name}{behind}", family(caller)).to_uppercase();
    names.into_iter().map(name).zip(numbers).collect()
}

fn limits(caller: Caller) -> [u32; 5] {
    let Limits { tasks, queues, timers, messages, queue_bytes } = caller.limits();
    [tasks.into(), queues.into(), timers.into(), messages.into(), queue_bytes as u32]
}

#[test]
fn the_sizes_and_limits_are_the_papers() {
    let sizes = |caller: Caller| constants_of(caller, "", BLOCKS, "_BYTES", caller.sizes().map(|size| size as u32));
    let most = ["TASKS", "QUEUES", "TIMERS", "MESSAGES", "QUEUE_BYTES"];
    let limits = |caller: Caller| constants_of(caller, "MOST_", most, "", limits(caller));
    let both = [("FRAME_BYTES", MOST_BYTES), ("LINE_DIGITS", MOST_DIGITS), ("ENTRY_BYTES", SLOT_BYTES)];
    let lists = [("MOST_PAIRS", MOST_PAIRS), ("MOST_RECORDS", MOST_RECORDS), ("MOST_CYCLES", MOST_CYCLES)];
    let both = both.into_iter().chain(lists).map(|(name, size)| (name.to_string(), size as u32));
    let cycles = [("LONGEST_CYCLE".to_string(), LONGEST_CYCLE)];
    let limits = Caller::ALL.into_iter().flat_map(limits).chain([("NO_START".to_string(), NO_START.into())]);
    let due = Caller::ALL.into_iter().flat_map(sizes).chain(both).chain(cycles).chain(limits);
    let defined = named(&text("host/mcx11.h"), "#define MCX11_", " ", ' ').into_iter();
    let defined: Vec<_> = defined.filter(|(name, _)| !name.starts_with("VERSION")).collect();
    assert_eq!(defined, due.collect::<Vec<_>>());
}

fn the_struct_has_the_blocks(caller: Caller) {
    let (header, family) = (text("host/mcx11.h"), family(caller));
    let body =
        header.split(&format!("typedef struct mcx11_{family}t {{")).nth(1).and_then(|rest| rest.split('}').next());
    let field = |line: &str| Some(line.trim().strip_prefix("uint8_t ")?.split_once(';')?.0.to_string());
    let fields: Vec<String> = body.expect("the struct").lines().filter_map(field).collect();
    let size = |block: &str| format!("mcx11_{family}{block}_bytes").to_uppercase();
    assert_eq!(fields, BLOCKS.map(|block| format!("{block}[{}]", size(block))));
}

/// A column of a page's table: that of the controller, or the module's behind it.
fn column(page: &str, heading: &str, place: usize) -> Vec<String> {
    let page = text(page);
    let rows = page.lines().skip_while(|line| !line.starts_with(heading)).skip(2);
    let cell = |line: &str| line.split('|').nth(place).expect("a cell").trim().to_string();
    rows.take_while(|line| line.starts_with('|')).map(cell).collect()
}

fn the_pages_have_the_sizes_and_limits(caller: Caller) {
    let behind = usize::from(caller == Caller::Module);
    let heading = "| Block | Bytes | On the module |";
    assert_eq!(column("docs/MEMORY.md", heading, 1), BLOCKS.map(|block| format!("`{block}`")));
    assert_eq!(column("docs/MEMORY.md", heading, 2 + behind), caller.sizes().map(|size| size.to_string()));
    let all = limits(caller).into_iter().chain([MOST_PAIRS as u32, 255, caller.longest() as u32]);
    let told = column("docs/MEMORY.md", "| At most | Controller | Module |", 2 + behind);
    assert_eq!(told, all.map(|limit| limit.to_string()).collect::<Vec<_>>());

    let total = grouped(caller.sizes().iter().sum());
    for page in ["README.md", "docs/HOST.md", "docs/MEMORY.md", "docs/CHANGES.md"] {
        assert!(text(page).contains(&total), "{page} does not have {total}, all bytes that are lent");
    }

    let heading = "| Bytes | Holds | In `mcx11_configuration_t` |";
    let told = column("docs/FRAMES.md", heading, 3).into_iter().zip(column("docs/FRAMES.md", heading, 5 + behind));
    let fields = ["`tasks`", "`queues`", "`timers`", "`messages`", "`queue[q].width`, `.depth`"];
    let told = told.filter(|(field, _)| fields.contains(&field.as_str())).map(|(_, most)| most);
    let most = limits(caller).map(|limit| grouped(limit as usize));
    let alike = |(told, most): &(String, String)| told == most || told.ends_with(&format!("at most {most}"));
    assert_eq!(told.zip(most).filter(alike).count(), fields.len(), "docs/FRAMES.md");
}

fn grouped(number: usize) -> String {
    if number < 1000 {
        return number.to_string();
    }
    format!("{},{:03}", number / 1000, number % 1000)
}

#[test]
fn the_archive_has_the_headers_functions_and_no_data() {
    let mut nm = Command::new("nm");
    let symbols = printed(nm.arg(repository().join("target/staticlib/libmcx11.a")), b"");
    let of_kind = |kinds: &str| -> Vec<&str> {
        let symbol = |line: &&'_ str| line[17..18].chars().all(|kind| kinds.contains(kind));
        let lines = symbols.lines().filter(|line| line.len() > 19).filter(symbol);
        lines.map(|line| &line[19..]).collect()
    };
    let header = text("host/mcx11.h");
    let declared =
        header.lines().filter(|line| line.starts_with("uint8_t mcx11_") || line.starts_with("int32_t mcx11_"));
    let mut declared: Vec<&str> = declared.map(|line| line.split([' ', '(']).nth(1).unwrap()).collect();
    declared.sort_unstable();
    assert_eq!(of_kind("T"), declared);
    assert_eq!(of_kind("U"), ["memcpy", "memmove", "memset"]);
    assert_eq!(of_kind("BbCcDdGgSs"), [""; 0]);
}

// ---- the examples

#[test]
fn the_examples_print_what_is_stored() {
    let build = || Command::new(repository().join("host/build"));
    assert_eq!(printed(&mut build(), b""), text("host/example.out"));
    for example in ["switching", "both"] {
        assert_eq!(printed(build().arg(example), b""), text(&format!("host/{example}.out")));
    }
}

#[test]
fn the_build_says_what_is_missing() {
    let folder = scratch("build").join("host");
    fs::create_dir(&folder).unwrap();
    copied(&["build", "example.c"], &folder);
    for (name, advice) in
        [("example", "run './build archive' first"), ("exmaple", "name 'example', 'switching' or 'both'")]
    {
        let output = run(Command::new(folder.join("build")).arg(name), b"");
        assert_eq!(output.status.code(), Some(1));
        assert!(String::from_utf8_lossy(&output.stderr).contains(advice), "{name}: {output:?}");
    }
}

#[test]
fn the_example_advises_on_every_number() {
    let example = text("host/example.c");
    for (name, _) in numbers() {
        assert_eq!(example.matches(&format!("    case MCX11_NUMBER_{name}: return \"")).count(), 1, "{name}");
    }
}

// ---- the page

#[test]
fn the_page_has_every_number() {
    let page = text("docs/HOST.md");
    let rows = page.lines().skip_while(|line| !line.starts_with("| Number | Behind `MCX11_NUMBER_` |")).skip(2);
    let row = |line: &str| {
        let cells: Vec<&str> = line.trim_matches('|').split('|').map(str::trim).collect();
        assert!(cells.len() == 4 && cells.iter().all(|cell| !cell.is_empty()), "{line}");
        let number: u32 = cells[0].split(' ').next().expect("a number").parse().expect("a number");
        assert_eq!(cells[0], format!("{number} (${number:02X})"));
        (cells[1].trim_matches('`').to_string(), number)
    };
    assert_eq!(rows.take_while(|line| line.starts_with('|')).map(row).collect::<Vec<_>>(), numbers());
}
