//! docs/MEMORY.md: its sizes, marks and regions are those of the Rattle sources and of the largest configuration, on the controller and
//! on the module, and its example is what the other executive holds.

use plain_executive::configuration::{Configuration, QueueSize, MOST_PAIRS};
use plain_executive::executive::Executive;
use plain_executive::generator::largest;
use plain_executive::items::{OutcomeItem, RequestItem};
use plain_executive::limits::Limits;
use plain_executive::line;
use plain_executive::tasks::Letter;
use plain_executive::written::PLANES;
use std::cell::RefCell;
use std::collections::HashMap;
use std::fs;
use std::path::{Path, PathBuf};

const BLOCKS: [&str; 5] = ["config", "tables", "slots", "timers", "answer"];
/// Where the part of a block begins, and in config the frame.
const PART: usize = 4;
const FRAME: usize = 6;

fn repository() -> PathBuf {
    Path::new(env!("CARGO_MANIFEST_DIR")).join("..")
}

fn text(path: impl AsRef<Path>) -> String {
    let path = repository().join(path);
    fs::read_to_string(&path).unwrap_or_else(|error| panic!("{}: {error}", path.display()))
}

// ---- the page

/// The rows of the table whose first heading cells are these, without the heading.
fn table(headings: &[&str]) -> Vec<Vec<String>> {
    let page = text("docs/MEMORY.md");
    let cells = |line: &str| -> Vec<String> {
        line.trim().trim_matches('|').split('|').map(|cell| cell.trim().to_string()).collect()
    };
    let mut lines =
        page.lines().skip_while(|line| !(line.starts_with('|') && cells(line).starts_with(&owned(headings))));
    let heading = lines.next().unwrap_or_else(|| panic!("docs/MEMORY.md has no table {headings:?}"));
    let rows: Vec<_> = lines.skip(1).take_while(|line| line.starts_with('|')).map(cells).collect();
    assert!(rows.iter().all(|row| row.len() == cells(heading).len()), "a row of {headings:?} has other columns");
    rows
}

fn owned(words: &[&str]) -> Vec<String> {
    words.iter().map(|word| word.to_string()).collect()
}

/// Who lends: its limits, its name in the specifications, and its column of the page's sizes.
struct Caller {
    limits: Limits,
    name: &'static str,
    column: usize,
}

const CONTROLLER: Caller = Caller { limits: Limits::CONTROLLER, name: "controller", column: 1 };
const MODULE: Caller = Caller { limits: Limits::MODULE, name: "brake_module", column: 2 };

/// Of each block its bytes, and what a configuration needs.
fn sizes(caller: &Caller) -> Vec<(String, usize, String)> {
    let rows = table(&["Block", "Bytes", "On the module", "Needed for a configuration"]);
    let sizes: Vec<_> = rows
        .iter()
        .map(|row| (row[0].trim_matches('`').to_string(), row[caller.column].parse().unwrap(), row[3].clone()))
        .collect();
    assert_eq!(sizes.iter().map(|size| size.0.as_str()).collect::<Vec<_>>(), BLOCKS);
    sizes
}

/// The bytes of both marks of a block.
fn of_marks(block: &str) -> usize {
    if block == "answer" {
        0
    } else {
        8
    }
}

/// A sum of terms such as 6T, 2 or W.
fn evaluate(sum: &str, value: impl Fn(&str) -> usize) -> usize {
    let term = |term: &str| {
        let digits = term.chars().take_while(char::is_ascii_digit).count();
        let (factor, name) = term.split_at(digits);
        let name = name.trim().trim_start_matches("* ");
        let factor = if factor.is_empty() { 1 } else { factor.parse().unwrap() };
        factor * if name.is_empty() { 1 } else { value(name) }
    };
    sum.replace(['(', ')'], "").split('+').map(|part| term(part.trim())).sum()
}

#[derive(Clone, Copy, Debug)]
struct Numbers {
    tasks: usize,
    named: usize,
    queues: usize,
    timers: usize,
    messages: usize,
    pairs: usize,
    queue_bytes: usize,
}

impl Numbers {
    fn of(configuration: &Configuration) -> Numbers {
        let bytes = |queue: &QueueSize| usize::from(queue.width) * usize::from(queue.depth);
        Numbers {
            tasks: configuration.tasks.into(),
            named: configuration.named_semaphores.into(),
            queues: configuration.queues.len(),
            timers: configuration.timers.into(),
            messages: configuration.messages.into(),
            pairs: configuration.pairs.len(),
            queue_bytes: configuration.queues.iter().map(bytes).sum(),
        }
    }

    /// By the letters of the page.
    fn letter(&self, name: &str) -> usize {
        match name {
            "T" => self.tasks,
            "S" => self.named,
            "Q" => self.queues,
            "R" => self.timers,
            "G" => self.messages,
            "P" => self.pairs,
            "W" => self.queue_bytes,
            _ => panic!("MEMORY.md: no number {name}"),
        }
    }
}

// ---- configurations

fn some_configurations() -> Vec<Configuration> {
    let session = line::read(b"020101010101007D00000101").unwrap();
    let plain = line::read(b"010000000001000100").unwrap();
    let queues = line::read(b"030502020901000A000100030410FF").unwrap();
    let pairs = line::read(b"03000100000100010000000201010302030103").unwrap();
    [session, plain, queues, pairs, largest(Limits::CONTROLLER), largest(Limits::MODULE)]
        .iter()
        .map(|frame| Configuration::read(frame).expect("accepted"))
        .collect()
}

fn grouped(number: usize) -> String {
    if number < 1000 {
        return number.to_string();
    }
    format!("{},{:03}", number / 1000, number % 1000)
}

/// The page's words for it.
fn told(numbers: Numbers) -> String {
    let Numbers { tasks, named, queues, timers, messages, pairs, queue_bytes } = numbers;
    format!("T {tasks}, S {named}, Q {queues}, R {timers}, G {messages}, P {pairs} and W {}", grouped(queue_bytes))
}

#[test]
fn the_sizes_are_what_the_largest_configuration_needs() {
    let page = text("docs/MEMORY.md").split_whitespace().collect::<Vec<_>>().join(" ");
    for caller in [CONTROLLER, MODULE] {
        let frame = largest(caller.limits);
        let largest = Numbers::of(&Configuration::read_within(caller.limits, &frame).expect("accepted"));
        let sizes = sizes(&caller);
        for (block, bytes, needed) in &sizes {
            assert_eq!(evaluate(needed, |name| largest.letter(name)) + of_marks(block), *bytes, "{block}");
        }
        assert_eq!(FRAME + frame.len() + 4, sizes[0].1);
        let total = sizes.iter().map(|size| size.1).sum();
        for words in [told(largest), format!(" {} bytes", grouped(total))] {
            assert!(page.contains(&words), "the page does not say: {words}");
        }
    }
}

#[test]
fn no_accepted_configuration_needs_more() {
    for caller in [CONTROLLER, MODULE] {
        let Limits { tasks, queues, timers, messages, queue_bytes } = caller.limits;
        let [tasks, queues, timers, messages] = [tasks, queues, timers, messages].map(usize::from);
        let sizes = sizes(&caller);
        for tasks in 1..=tasks {
            for queues in (0..=queues).take_while(|queues| tasks + 2 * queues <= 255) {
                let named = 255 - tasks - 2 * queues;
                let queue_bytes = (queues * 16 * 255).min(queue_bytes);
                let most = Numbers { tasks, named, queues, timers, messages, pairs: MOST_PAIRS, queue_bytes };
                for (block, bytes, needed) in &sizes {
                    assert!(
                        evaluate(needed, |name| most.letter(name)) + of_marks(block) <= *bytes,
                        "{block}: {most:?}"
                    );
                }
            }
        }
    }
}

// ---- the sources

/// The values of a record such as `controller = record { tasks = 126; queues = 32 }`.
fn record_of(file: &str, name: &str) -> HashMap<String, String> {
    let source = text(file);
    let (_, body) = source.split_once(&format!("\n{name} = record {{")).unwrap_or_else(|| panic!("{file}: no {name}"));
    let fields = body.split('}').next().expect("its end").split(';').filter_map(|field| field.split_once(" = "));
    fields.map(|(field, value)| (field.trim().to_string(), value.trim().to_string())).collect()
}

/// The limits of the specifications are those of the other implementation.
#[test]
fn the_limits_are_those_of_the_sources() {
    for caller in [CONTROLLER, MODULE] {
        let Limits { tasks, queues, timers, messages, queue_bytes } = caller.limits;
        let counts = [("tasks", tasks), ("queues", queues), ("timers", timers), ("messages", messages)];
        let counts = counts.map(|(name, most)| (name.to_string(), most.to_string()));
        let due = counts.into_iter().chain([("bytes".to_string(), queue_bytes.to_string())]);
        assert_eq!(record_of("crates/ledger/specs/Config.antt", caller.name), due.collect(), "{}", caller.name);
    }
}

/// The sizes of the page are `sizes_of` of the limits.
#[test]
fn the_sizes_are_those_of_the_sources() {
    let sums = record_of("crates/mcx11/specs/Contract.antt", "sizes_of k");
    for caller in [CONTROLLER, MODULE] {
        let Limits { tasks, queues, timers, messages, queue_bytes } = caller.limits;
        let value = |name: &str| match name.trim_start_matches("k.") {
            "tasks" => tasks.into(),
            "queues" => queues.into(),
            "timers" => timers.into(),
            "messages" => messages.into(),
            "bytes" => queue_bytes,
            "longest k" => 8 + usize::from(tasks) + 2 * usize::from(queues) + 2 * MOST_PAIRS,
            "part_at" | "frame_at" => number("crates/parts/specs/Parts.antt", name),
            "records_at" => number("crates/tables/specs/Layout.antt", name),
            "answer_bytes" => number("crates/answer/specs/Written.antt", name),
            _ => panic!("sizes_of: no number {name}"),
        };
        for (block, bytes, _) in sizes(&caller) {
            assert_eq!(evaluate(&sums[&block], value), bytes, "{block} of {}", caller.name);
        }
    }
}

/// The number that a definition of the specifications is.
fn number(file: &str, name: &str) -> usize {
    let source = text(file);
    let line = source.lines().find_map(|line| line.strip_prefix(&format!("{name} = ")));
    let read = |number: &str| match number.strip_prefix("0x") {
        Some(digits) => usize::from_str_radix(digits, 16).ok(),
        None => number.parse().ok(),
    };
    line.and_then(read).unwrap_or_else(|| panic!("{file}: {name} is no number"))
}

/// Of each block its mark, by the page.
fn marks() -> HashMap<String, Vec<u8>> {
    let mark = |row: &Vec<String>| (row[0].trim_matches('`').to_string(), row[1].as_bytes().to_vec());
    table(&["Block", "Mark"]).iter().map(mark).collect()
}

#[test]
fn the_marks_and_the_parts_are_those_of_the_sources() {
    let rows = table(&["Block", "Mark"]);
    assert_eq!(rows.len(), 4);
    for (row, block) in rows.iter().zip(BLOCKS) {
        assert_eq!(row[0], format!("`{block}`"));
        let mark = &marks()[block];
        let digits: Vec<String> = mark.iter().map(|byte| format!("{byte:02X}")).collect();
        assert_eq!(row[2], digits.join(" "), "{block}");
        let low_first = number("crates/mcx11/specs/Contract.antt", &format!("{block}_mark"));
        assert_eq!(u32::from_le_bytes(mark[..].try_into().expect("four bytes")) as usize, low_first, "{block}");
    }
    for (name, at) in [("part_at", PART), ("frame_at", FRAME)] {
        assert_eq!(number("crates/parts/specs/Parts.antt", name), at, "{name}");
    }
}

/// Both sides of each line such as `pub waiting : s.waitingat ≡ s.semaphoreat + s.semaphores` in a record of the specifications.
fn sides(file: &str, record: &str, sign: &str) -> Vec<(String, String)> {
    let source = text(file);
    let from = source.find(&format!("pub record {record} ")).unwrap_or_else(|| panic!("{file} has no {record}"));
    let fields = source[from..].split("\n\n").next().unwrap();
    let both = |line: &str| {
        let (left, right) = line.split_once(" : ")?.1.split_once(sign)?;
        Some((left.replace("s.", ""), right.replace("s.", "")))
    };
    fields.lines().filter(|line| line.starts_with("  pub ")).filter_map(both).collect()
}

fn fields(numbers: Numbers) -> HashMap<String, usize> {
    let fields = [
        ("tasks", numbers.tasks),
        ("named", numbers.named),
        ("queues", numbers.queues),
        ("timers", numbers.timers),
        ("messages", numbers.messages),
    ];
    fields.into_iter().map(|(name, value)| (name.to_string(), value)).collect()
}

#[test]
fn slots_and_timers_are_those_of_the_tables() {
    let needed = sides("crates/tables/specs/Shows.antt", "ShowsAs", " ≤ ");
    for (block, name) in [(2, "length z"), (3, "length w")] {
        let (sum, _) = needed.iter().find(|(_, right)| right == name).unwrap_or_else(|| panic!("no line with {name}"));
        for numbers in some_configurations().iter().map(Numbers::of) {
            let of_the_page = evaluate(&sizes(&CONTROLLER)[block].2, |name| numbers.letter(name));
            assert_eq!(evaluate(sum, |name| fields(numbers)[name]), of_the_page, "{numbers:?}");
        }
    }
}

#[test]
fn the_regions_are_those_of_the_layout() {
    let laid = sides("crates/tables/specs/Layout.antt", "Laid", " ≡ ");
    let starts = ["recordat", "semaphoreat", "waitingat", "ringat", "messageat", "bodyat"];
    let regions = table(&["Region", "Bytes"]);
    let named: Vec<_> = regions.iter().map(|row| row[0].as_str()).collect();
    assert_eq!(named, ["ticks", "count", "planes", "records", "semaphores", "waiting", "rings", "messages", "entries"]);

    for configuration in some_configurations() {
        let numbers = Numbers::of(&configuration);
        let mut fields = fields(numbers);
        fields.insert("records_at".to_string(), number("crates/tables/specs/Layout.antt", "records_at"));
        for (field, sum) in &laid {
            let value = evaluate(sum, |name| fields[name]);
            fields.insert(field.clone(), value);
        }
        let mut at = 0;
        for (row, region) in regions.iter().enumerate() {
            if row >= 3 {
                assert_eq!(fields[starts[row - 3]], at, "{}: {numbers:?}", region[0]);
            }
            at += evaluate(&region[1], |name| numbers.letter(name));
        }
        assert_eq!(at, evaluate(&sizes(&CONTROLLER)[1].2, |name| numbers.letter(name)), "{numbers:?}");
    }
}

// ---- outcomes and requests

/// The first byte, and how many of the others are 00, of an item whose values are not 0.
fn first_and_zeros(written: &[u8]) -> (u8, usize) {
    (written[0], written[1..].iter().filter(|byte| **byte == 0).count())
}

/// The same by the page, of the rows of such a table.
fn rows_of(headings: &[&str]) -> Vec<(u8, usize)> {
    let number = |cell: &str| cell.split(|c: char| !c.is_ascii_digit()).next().and_then(|digits| digits.parse().ok());
    let zeros = |cell: &str| cell.split([' ', ',', ';']).filter(|word| *word == "00").count();
    table(headings).iter().map(|row| (number(&row[1]).expect("a byte"), zeros(&row[2]))).collect()
}

#[test]
fn outcomes_and_requests_have_the_bytes_of_the_page() {
    let outcomes = [
        OutcomeItem::Plain,
        OutcomeItem::Begin,
        OutcomeItem::Message(Letter { message: 7, sender: 8, semaphore: 9 }),
        OutcomeItem::Entry(vec![0; 16]),
        OutcomeItem::Refused(21),
        OutcomeItem::Semaphore(255),
        OutcomeItem::Woke(126),
    ];
    let of_outcomes: Vec<_> = outcomes.iter().map(|outcome| first_and_zeros(&outcome.written())).collect();
    assert_eq!(rows_of(&["Outcome", "First byte", "The other three"]), of_outcomes);
    let requests =
        [RequestItem::None, RequestItem::Receive(1), RequestItem::Dequeue(2), RequestItem::Enqueue(3, vec![0; 4])];
    let of_requests: Vec<_> = requests.iter().map(|request| first_and_zeros(&request.written())).collect();
    assert_eq!(rows_of(&["Request", "First byte", "The second"]), of_requests);
}

// ---- the example

#[derive(Clone, Copy, Debug, PartialEq, Eq)]
enum Shown {
    Byte(u8),
    Free,
    Outside,
}

/// A block of the example. It notes which bytes have been read.
struct Bytes {
    name: &'static str,
    bytes: Vec<Shown>,
    read: RefCell<Vec<bool>>,
}

impl Bytes {
    fn at(&self, index: usize) -> u8 {
        self.read.borrow_mut()[index] = true;
        match self.bytes[index] {
            Shown::Byte(byte) => byte,
            other => panic!("byte {index} of {} is shown as {other:?}", self.name),
        }
    }

    fn number(&self, index: usize) -> usize {
        self.at(index).into()
    }

    fn some(&self, from: usize, count: usize) -> Vec<u8> {
        (from..from + count).map(|index| self.at(index)).collect()
    }

    fn all_others_are_free(&self) {
        for (index, read) in self.read.borrow().iter().enumerate() {
            assert!(*read || !matches!(self.bytes[index], Shown::Byte(_)), "byte {index} of {} is free", self.name);
        }
    }

    /// The mark stands at both ends of the size, and what is neither part nor mark is shown as outside.
    fn is_laid_out(&self, size: usize, mark: &[u8], part: usize) {
        assert_eq!(self.bytes.len(), size, "{}", self.name);
        assert_eq!((self.some(0, 4), self.some(size - 4, 4)), (mark.to_vec(), mark.to_vec()), "{}", self.name);
        for (index, shown) in self.bytes.iter().enumerate() {
            let outside = (PART + part..size - 4).contains(&index);
            assert_eq!(*shown == Shown::Outside, outside, "byte {index} of {}", self.name);
        }
    }
}

fn cell_bytes(cell: &str) -> Vec<Shown> {
    let mut bytes = Vec::new();
    let mut words = cell.split(' ').peekable();
    while let Some(word) = words.next() {
        let (count, word) = match words.next_if_eq(&"×") {
            Some(_) => (word.parse().expect("a count"), words.next().expect("a byte")),
            None => (1, word),
        };
        let byte = match word {
            "--" => Shown::Free,
            ".." => Shown::Outside,
            _ => Shown::Byte(u8::from_str_radix(word, 16).unwrap_or_else(|_| panic!("{word} is no byte"))),
        };
        bytes.extend(vec![byte; count]);
    }
    bytes
}

fn example(column: usize) -> HashMap<&'static str, Bytes> {
    let mut found: HashMap<&'static str, Vec<Shown>> = HashMap::new();
    let mut block = "";
    for row in table(&["Block", "Bytes", "Holds"]) {
        block = BLOCKS.iter().find(|name| row[0] == format!("`{name}`")).unwrap_or(&block);
        let (from, to) = row[1].split_once('-').unwrap_or((&row[1], &row[1]));
        let bytes = found.entry(block).or_default();
        assert_eq!(bytes.len(), from.parse().unwrap(), "{block}: {row:?} does not follow");
        bytes.extend(cell_bytes(&row[column]));
        assert_eq!(bytes.len(), to.parse::<usize>().unwrap() + 1, "{block}: {row:?} has other bytes");
    }
    assert_eq!(found.len(), BLOCKS.len());
    let whole =
        |(name, bytes): (_, Vec<_>)| (name, Bytes { name, read: RefCell::new(vec![false; bytes.len()]), bytes });
    found.into_iter().map(whole).collect()
}

/// The bytes are those that the program writes for what the executive holds.
fn assert_written(memory: &HashMap<&str, Bytes>, executive: &Executive) {
    let (configuration, items) = (executive.configuration(), executive.items());
    let numbers = Numbers::of(configuration);
    let starts: HashMap<String, usize> = table(&["Region", "Bytes"])
        .iter()
        .scan(PART, |at, row| {
            let from = *at;
            *at += evaluate(&row[1], |name| numbers.letter(name));
            Some((row[0].clone(), from))
        })
        .collect();
    let (tables, slots, timers) = (&memory["tables"], &memory["slots"], &memory["timers"]);

    assert_eq!(tables.at(starts["ticks"]), configuration.ticks_per_tock - items.ticks);
    for (plane, block) in PLANES.into_iter().enumerate() {
        assert_eq!(tables.some(starts["planes"] + 16 * plane, 16), items.plane(block), "{block:?}");
    }
    for (index, task) in items.tasks.iter().enumerate() {
        let record = starts["records"] + 6 * index;
        assert_eq!(tables.some(record, 4), task.outcome.written(), "task {}", index + 1);
        assert_eq!(tables.some(record + 4, 2), task.request.written(), "task {}", index + 1);
        let entry = task.request.entry();
        assert_eq!(tables.some(starts["waiting"] + 16 * index, entry.len()), entry, "task {}", index + 1);
        assert_eq!(slots.some(PART + 16 * index, 16), task.slot, "task {}", index + 1);
    }
    for (index, semaphore) in items.semaphores.iter().enumerate() {
        assert_eq!(tables.at(starts["semaphores"] + index), semaphore.written(), "semaphore {}", index + 1);
    }

    let lying: usize = items.mailboxes.iter().map(Vec::len).sum();
    assert_eq!(tables.number(starts["count"]), lying);
    let records: Vec<_> = (0..lying).map(|index| tables.some(starts["messages"] + 4 * index, 4)).collect();
    for (task, mailbox) in (1..).zip(&items.mailboxes) {
        let found: Vec<_> = records.iter().filter(|record| record[0] == task).cloned().collect();
        let written: Vec<_> = mailbox.iter().map(|letter| letter.written(task).to_vec()).collect();
        assert_eq!(found, written, "task {task}");
    }

    let histories = executive.history().expect("kept");
    let mut places = starts["entries"];
    for (index, size) in configuration.queues.iter().enumerate() {
        let (width, depth) = (usize::from(size.width), usize::from(size.depth));
        let (taken, held) = (histories[index].copied.len(), &items.queues[index]);
        let ring = tables.some(starts["rings"] + 2 * index, 2);
        assert_eq!(ring, [(taken % depth) as u8, held.len() as u8], "queue {}", index + 1);
        for (turn, entry) in held.iter().enumerate() {
            assert_eq!(tables.some(places + (taken + turn) % depth * width, width), *entry, "queue {}", index + 1);
        }
        places += width * depth;
    }

    assert_eq!(timers.number(PART), items.timers.len());
    let row = |row: usize| PART + 1 + 10 * row;
    for (index, timer) in items.timers.iter().enumerate() {
        let [time, floor] = [2, 6].map(|at| u32::from_le_bytes(timers.some(row(0) + at, 4).try_into().unwrap()));
        assert!(u64::from(floor) <= u64::from(time) + timer.tocks_left, "timer {} is due before {floor}", index + 1);
        assert_eq!(timers.some(row(index + 1), 10), timer.written(time), "timer {}", index + 1);
    }
}

#[test]
fn the_example_is_what_the_other_executive_holds() {
    let page = text("docs/MEMORY.md");
    let heading = page.lines().find(|line| line.starts_with("| Block | Bytes | Holds |")).expect("the example");
    let frames: Vec<Vec<u8>> =
        heading.split('`').skip(1).step_by(2).map(|digits| line::read(digits.as_bytes()).expect("digits")).collect();
    assert_eq!(frames.len(), 3);

    let mut executive = Executive::configure(&frames[0]).expect("accepted");
    executive.keep_history();
    for (index, frame) in frames.iter().enumerate() {
        let answer = if index == 0 { executive.answer(0, 0) } else { executive.frame(frame) };
        let memory = example(3 + index);
        assert_eq!(memory["config"].some(PART, 2), (frames[0].len() as u16).to_be_bytes());
        assert_eq!(memory["config"].some(FRAME, frames[0].len()), frames[0]);
        assert_written(&memory, &executive);
        let length = memory["answer"].number(0);
        assert_eq!(memory["answer"].some(1, length), answer.bytes());
        assert!(memory["answer"].bytes[1 + length..].iter().all(|shown| *shown == Shown::Outside), "behind the answer");
        let needed = |block: usize| {
            evaluate(&sizes(&CONTROLLER)[block].2, |name| Numbers::of(executive.configuration()).letter(name))
        };
        for (block, name) in BLOCKS.into_iter().enumerate().take(4) {
            memory[name].is_laid_out(sizes(&CONTROLLER)[block].1, &marks()[name], needed(block));
        }
        memory.values().for_each(Bytes::all_others_are_free);
    }
}
