//! A whole session as the page holds it: each frame with its words, its answer and what it changed.

use std::collections::HashMap;

use c::caller::Caller;
use c::compare::unequal_items;
use plain_executive::command::*;
use plain_executive::configuration::Configuration;
use plain_executive::line::MOST_BYTES;
use plain_executive::session::lines;

use crate::busiest::Stretch;
use crate::changes::{long, Changes};
use crate::json::Json;
use crate::names::Names;
use crate::progress::Progress;
use crate::replay::{Call, Replay, Step, Stop};
use crate::summary::Summary;
use crate::words::{hex, on, Words};

/// Lines that are named by their place.
#[derive(Default)]
struct Dictionary {
    places: HashMap<String, usize>,
    text: String,
}

impl Dictionary {
    fn place(&mut self, line: String) -> usize {
        let next = self.places.len();
        *self.places.entry(line).or_insert_with_key(|line| {
            self.text.push_str(line);
            self.text.push('\n');
            next
        })
    }
}

pub struct Recording {
    pub frames: usize,
    pub header: Json,
    /// What is asked: digits, caller, what it names, words.
    asked: Dictionary,
    /// What is answered: digits, words.
    answered: Dictionary,
    bytes: Vec<u8>,
}

/// Where a session stopped: the line, and why.
pub type Failure = (usize, Stop);

impl Recording {
    /// Of a caller's session whose configuration is accepted.
    pub fn of(
        caller: Caller,
        file: &str,
        input: &[u8],
        names: &Names,
        stretch: Option<&Stretch>,
        call: Call,
    ) -> Result<Self, Failure> {
        let mut rest = lines(input);
        let first = rest.next().unwrap_or_default();
        let mut replay = Replay::begin_with(caller, first, call).map_err(|why| (1, why))?;
        let configuration = replay.other().configuration().clone();
        let words = Words { configuration: &configuration, names };
        let mut writer = Writer::new(&words, &replay.first(first));
        let mut progress = Progress::default();
        writer.step(&replay.first(first)).map_err(|why| (1, why))?;
        for (place, line) in rest.enumerate() {
            let mut room = [0; MOST_BYTES];
            let step = replay.feed(line, &mut room).map_err(|why| (place + 2, why))?;
            writer.step(&step).map_err(|why| (place + 2, why))?;
            progress.at(place + 1);
        }
        progress.end();
        Ok(writer.end(caller, file, stretch))
    }

    /// All of it: each part behind its length.
    pub fn bytes(&self) -> Vec<u8> {
        let header = self.header.to_string();
        let parts = [header.as_bytes(), self.asked.text.as_bytes(), self.answered.text.as_bytes(), &self.bytes];
        let mut bytes = Vec::new();
        for part in parts {
            long(part.len() as u64, &mut bytes);
            bytes.extend_from_slice(part);
        }
        bytes
    }
}

struct Writer<'a> {
    words: &'a Words<'a>,
    frames: usize,
    asked: Dictionary,
    answered: Dictionary,
    changes: Changes,
    summary: Summary,
}

impl<'a> Writer<'a> {
    fn new(words: &'a Words<'a>, first: &Step) -> Self {
        Writer {
            words,
            frames: 0,
            asked: Dictionary::default(),
            answered: Dictionary::default(),
            changes: Changes::new(&first.memory.items(words.configuration)),
            summary: Summary::new(words.configuration),
        }
    }

    /// The items are those of the lent memory, and the other implementation's must be the same.
    fn step(&mut self, step: &Step) -> Result<(), Stop> {
        self.frames = step.number;
        let asked = self.asked.place(asked_line(self.words, step));
        let answered = self.answered.place(format!("{}\t{}", hex(step.answer), self.words.answered(step)));
        long(asked as u64, &mut self.changes.bytes);
        long(answered as u64, &mut self.changes.bytes);
        let items = (step.refusal() == 0).then(|| step.memory.items(self.words.configuration));
        if let Some(what) = items.as_ref().and_then(|items| unequal_items(items, &step.other.items())) {
            return Err(Stop::Differs(what));
        }
        self.changes.frame(items, step.other.clock().tocks(), step.dropped, step.trail);
        self.summary.step(step, self.changes.before());
        Ok(())
    }

    fn end(self, caller: Caller, file: &str, stretch: Option<&Stretch>) -> Recording {
        let Writer { words, frames, asked, answered, changes, summary } = self;
        let mut header = vec![
            ("file", file.into()),
            ("on", on(caller).into()),
            ("frames", frames.into()),
            ("configuration", configured(words.configuration)),
            ("names", Json::List(words.names.all().map(|(key, name)| vec![key.as_str(), name].into()).collect())),
            ("tables", summary.tables(words, changes.before())),
        ];
        header.extend(stretch.map(|stretch| ("busiest", stretch.json())));
        Recording { frames, header: Json::Object(header), asked, answered, bytes: changes.bytes }
    }
}

fn configured(configuration: &Configuration) -> Json {
    let Configuration { tasks, named_semaphores, timers, messages, ticks_per_tock, milliseconds_per_tock, .. } =
        *configuration;
    let sizes = configuration.queues.iter().map(|size| vec![size.width, size.depth].into());
    let pairs = configuration.pairs.iter().map(|pair| vec![pair.first, pair.then].into());
    Json::Object(vec![
        ("tasks", tasks.into()),
        ("named", named_semaphores.into()),
        ("timers", timers.into()),
        ("messages", messages.into()),
        ("ticks", ticks_per_tock.into()),
        ("milliseconds", usize::from(milliseconds_per_tock).into()),
        ("queues", Json::List(sizes.collect())),
        ("pairs", Json::List(pairs.collect())),
    ])
}

/// Characters of a line that is refused.
const MOST_SHOWN: usize = 40;

fn asked_line(words: &Words, step: &Step) -> String {
    let digits = match step.frame {
        Some(_) => String::from_utf8_lossy(step.line).into_owned(),
        None => step.line.iter().take(MOST_SHOWN).flat_map(|byte| byte.escape_ascii()).map(char::from).collect(),
    };
    format!("{digits}\t{}\t{}\t{}", step.caller, named(words.configuration, step).join(" "), words.asked(step))
}

/// What a frame names: its caller, what its fields stand for, and the messages that it drops.
fn named(configuration: &Configuration, step: &Step) -> Vec<String> {
    let Some(&[code, a, b, _, low, ..]) = step.frame.filter(|_| step.number > 0) else {
        return Vec::new();
    };
    let own = step.caller;
    let of_a = if a == 0 { own } else { a };
    let tasks = 1..=configuration.tasks;
    let semaphore = |of: u8| if b == 0 && tasks.contains(&of) { configuration.semaphore_of_task(of) } else { b };
    let mut named = Vec::new();
    if (WAIT..=SEASON_TIMER).contains(&code) && is_service(code) {
        named.push(format!("t{own}"));
    }
    match code {
        WAIT | SIGNAL | PEND => named.push(format!("s{}", semaphore(own))),
        SEND | SENDW => named.extend([format!("t{a}"), format!("s{}", semaphore(own)), format!("m{low}")]),
        DEQUEUE | ENQUEUE => named.push(format!("q{a}")),
        RECEIVE | RESUME | SUSPEND | EXECUTE => named.push(format!("t{of_a}")),
        TERMINATE => {
            named.push(format!("t{of_a}"));
            step.dropped.iter().for_each(|letter| {
                named.extend([format!("s{}", letter.semaphore), format!("m{}", letter.message)]);
            });
        }
        DELAY | TIMER | SEASON_TIMER | PURGE => named.extend([format!("t{of_a}"), format!("s{}", semaphore(of_a))]),
        INTERRUPT_EXIT if b != 0 => named.push(format!("s{b}")),
        _ => {}
    }
    named
}
