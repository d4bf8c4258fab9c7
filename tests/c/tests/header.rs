//! host/mcx11.h: its calls by names feed the frames that they should, its trace hooks get every call, its texts are its names; its
//! records are of the answers.
//! host/mcx11_state.h: its readers of the state tell what the other implementation has, whatever the memory holds.
//! All of it for the controller and for the module, whose names are in host/mcx11_as_module.h.

mod tools;

use c::caller::Caller;
use c::damage::damage;
use c::lent::{kept_length, Lent, FRAME, PART};
use c::{for_each_caller, rules};
use plain_executive::command::{SEASON_TIMER, TICK, TIMER};
use plain_executive::configuration::{Configuration, MOST_PAIRS};
use plain_executive::executive::Executive;
use plain_executive::generator::{cascade, Generator, Script};
use plain_executive::items::Items;
use plain_executive::limits::Limits;
use plain_executive::random::Random;
use plain_executive::semaphore::Semaphore;
use plain_executive::tasks::{Block, Blocks};
use plain_executive::{line, session};
use std::collections::BTreeSet;
use std::fmt::Write;
use std::process::Command;
use tools::{
    answers, built, frames_of, languages, of_caller, printed, repository, run, scratch, stories, text, two_languages,
};

for_each_caller!(
    the_calls_by_names_feed_their_frames_and_are_traced,
    the_readers_tell_the_other_implementations_state,
    the_readers_stay_inside_whatever_the_memory_holds,
);

// ---- the module's names

/// The functions that a file of host/ has.
fn functions(file: &str) -> Vec<String> {
    let file = text(file);
    let named = file.lines().filter_map(|line| line.strip_prefix("static inline ")?.split_once('('));
    named.map(|(front, _)| front.rsplit([' ', '*']).next().expect("a name").to_string()).collect()
}

/// Every call and every reader has its name on the module, and no other name has one.
#[test]
fn the_module_has_every_call_and_reader() {
    let blocks = ["mcx11_t", "mcx11_configure_blocks", "mcx11_frame_blocks"].map(str::to_string);
    let [calls, readers] = ["host/mcx11_calls.h", "host/mcx11_readers.h"].map(functions);
    assert!(calls.len() >= 31 && readers.len() >= 22, "{calls:?} {readers:?}");
    let all: Vec<String> = blocks.into_iter().chain(calls).chain(readers).collect();
    let names = text("host/mcx11_as_module.h");
    let behind = |word: &str| -> Vec<&str> {
        let own = names.lines().filter_map(|line| line.strip_prefix(word));
        own.filter(|name| *name != "MCX11_AS_MODULE").collect()
    };
    let of_module = |name: &String| format!("{name} {}", name.replacen("mcx11_", "mcx11_module_", 1));
    assert_eq!(behind("#define "), all.iter().map(of_module).collect::<Vec<_>>());
    assert_eq!(behind("#undef "), all);
}

// ---- the calls by names, and the trace hooks

fn sessions(caller: Caller) -> Vec<Vec<u8>> {
    let stories = stories().into_iter().map(|story| frames_of(&story));
    let random = (0..60).map(|seed| Generator::within(caller.limits(), seed).script(1..=20, 300).lines());
    let too_many = [&[1, 0, 0, 0, 0, 1, 0, 1, 0][..], &[1; 2 * (MOST_PAIRS + 1)]].concat();
    let above = (0..20).map(|seed| Generator::new(seed).configuration_above_module());
    let configurations = above.chain([too_many]).map(|frame| line::write(&frame).expect("a line"));
    stories.chain(random).chain(configurations).collect()
}

/// What the hook writes of a session: line, answer, record and number of each call.
fn traced(program: &std::path::Path, input: &[u8]) -> String {
    printed(&mut Command::new(program), input)
}

/// A configuration as the call by names feeds it: with too many pairs it is the first eight bytes.
fn by_names(frame: &[u8]) -> Vec<u8> {
    let [tasks, _, queues, ..] = *frame else { return frame.to_vec() };
    let most = 8 + usize::from(tasks) + 2 * usize::from(queues) + 2 * MOST_PAIRS;
    if frame.len() > most {
        frame[..8].to_vec()
    } else {
        frame.to_vec()
    }
}

/// A frame as the call of its code's name feeds it: the fields that the code does not use are 0.
fn canonical(frame: &[u8]) -> Vec<u8> {
    let mut frame = frame.to_vec();
    if frame.len() < 5 || frame.len() > 5 && frame[0] != 8 {
        return frame;
    }
    let (a, b, x) = match frame[0] {
        1..=3 | 0x11 => (false, true, false),
        6..=0xC => (true, false, false),
        0x10 => (false, false, false),
        _ => (true, true, true),
    };
    for (used, at) in [(a, 1), (b, 2), (x, 3), (x, 4)] {
        frame[at] *= u8::from(used);
    }
    if frame[0] == 0xF && (frame[4] != 0 || frame[2] == 0) {
        frame[3] = 0;
        frame[4] = frame[4].min(1);
    }
    if frame.len() > 5 + 16 {
        frame.truncate(5);
    }
    frame
}

/// The record of an answer, with the tocks that tests/c/calls.c gives for this call.
fn record(call: usize, answer: &[u8]) -> String {
    let bytes = line::read(answer).expect("an answer is a line");
    format!("{}:{}:{}", 0xFFFF_FFF0_u32.wrapping_add(call as u32), bytes[1], bytes[2])
}

fn the_calls_by_names_feed_their_frames_and_are_traced(caller: Caller) {
    let folder = scratch(&format!("calls {caller:?}"));
    let told =
        [of_caller(caller), &["-DMCX11_MODULE_TRACE=written_down"][..usize::from(caller == Caller::Module)]].concat();
    let programs: Vec<_> = languages().map(|language| built(&folder, "calls.c", language, &told)).collect();
    let (code_names, numbers) = (names("code"), names("number"));
    let mut codes = BTreeSet::new();
    for input in sessions(caller) {
        let answers = answers(caller, &input);
        let mut expected = String::new();
        for (index, (fed, answer)) in session::lines(&input).zip(session::lines(&answers)).enumerate() {
            let frame = line::read(fed).expect("a line");
            let (what, called) = if index == 0 {
                ("configuration", by_names(&frame))
            } else {
                codes.insert(frame.first().copied());
                ("frame", canonical(&frame))
            };
            let code = if index == 0 { None } else { called.first() };
            let number = &numbers[usize::from(line::read(&answer[..2]).expect("a refusal")[0])];
            let code = code.map_or("", |&code| &code_names[usize::from(code)]);
            let digits = String::from_utf8(line::write(&called).expect("a line")).expect("digits");
            let (answer, record) = (String::from_utf8_lossy(answer), record(index, answer));
            writeln!(expected, "{digits} {answer} {record} {number}, {what} {code}").unwrap();
        }
        for program in &programs {
            assert_eq!(traced(program, &input), expected, "{}", program.display());
        }
    }
    assert!((1..=0x12).all(|code| codes.contains(&Some(code))), "not every code: {codes:?}");
}

/// What a C program of one's own prints, which includes the header.
fn told_by(name: &str, source: &str) -> String {
    let folder = scratch(name);
    std::fs::write(folder.join("own.c"), source).unwrap();
    let mut compile = Command::new("gcc");
    compile
        .args(["-std=c99", "-fsanitize=undefined", "-fno-sanitize-recover=all"])
        .args(tools::STRICT)
        .arg("-I")
        .arg(repository().join("host"))
        .arg("-o")
        .arg("own");
    compile.arg("own.c").arg(repository().join("target/staticlib/libmcx11.a"));
    printed(compile.current_dir(&folder), b"");
    printed(&mut Command::new(folder.join("own")), b"")
}

/// The module's names come behind the headers; before one of them, the compiler says so.
#[test]
fn the_modules_names_come_last() {
    let folder = scratch("order");
    let tried = |headers: &[&str]| {
        let lines: String = headers.iter().map(|header| format!("#include \"{header}\"\n")).collect();
        let mut compile = Command::new("gcc");
        compile.args(["-std=c99", "-fsyntax-only", "-x", "c", "-"]).arg("-I").arg(repository().join("host"));
        run(compile.current_dir(&folder), (lines + "mcx11_t lent;\n").as_bytes())
    };
    assert!(tried(&["mcx11.h", "mcx11_state.h", "mcx11_as_module.h"]).status.success());
    for (headers, advice) in [
        (["mcx11.h", "mcx11_as_module.h", "mcx11_state.h"], "include mcx11_as_module.h behind mcx11_state.h"),
        (["mcx11_as_module.h", "mcx11.h", "mcx11_state.h"], "include mcx11_as_module.h behind mcx11.h"),
    ] {
        let output = tried(&headers);
        assert!(!output.status.success() && String::from_utf8_lossy(&output.stderr).contains(advice), "{output:?}");
    }
}

const HOOKS: &str = r#"
#define MCX11_TRACE of_ride
#define MCX11_MODULE_TRACE of_brake
#include "mcx11.h"
#include <stdio.h>
static mcx11_t ride;
static mcx11_module_t brake;
static void told(const char *whose, enum mcx11_traced what, const uint8_t *bytes, size_t length, uint8_t number)
{
    const char *name = what == MCX11_TRACED_CONFIGURATION ? "configuration" : mcx11_code_name(bytes[0]);
    printf("%s: %s of %d bytes, %s\n", whose, name, (int)length, mcx11_number_name(number));
}
void of_ride(const mcx11_t *m, enum mcx11_traced what, const uint8_t *bytes, size_t length, uint8_t number)
{
    told(m == &ride ? "ride" : "unknown", what, bytes, length, number);
}
void of_brake(const mcx11_module_t *m, enum mcx11_traced what, const uint8_t *bytes, size_t length, uint8_t number)
{
    told(m == &brake ? "brake" : "unknown", what, bytes, length, number);
}
int main(void)
{
    static mcx11_configuration_t configuration;
    configuration.tasks = 17;
    configuration.ticks_per_tock = 1;
    configuration.milliseconds_per_tock = 125;
    mcx11_configure_from(&ride, &configuration);
    mcx11_module_configure_from(&brake, &configuration);
    mcx11_tick(&ride);
    mcx11_module_tick(&brake);
    return 0;
}
"#;

#[test]
fn each_hook_gets_the_calls_on_its_own_memory() {
    let due = "ride: configuration of 25 bytes, accepted\nbrake: configuration of 25 bytes, above module\n\
               ride: tick of 5 bytes, accepted\nbrake: tick of 5 bytes, memory\n";
    assert_eq!(told_by("hooks", HOOKS), due);
}

const TOCKS: &str = r#"
#define MCX11_TRACE fed
#include "mcx11.h"
#include <stdio.h>
void fed(const mcx11_t *m, enum mcx11_traced what, const uint8_t *bytes, size_t length, uint8_t number)
{
    size_t i;
    (void)m, (void)what, (void)number;
    for (i = 0; i < length; i++)
        printf("%02X", bytes[i]);
    printf("\n");
}
int main(void)
{
    static const int64_t tried[] = {INT64_MIN,  -2147483649, -10, 0, 1, 32767, 32768, 32769, 65536, 2147483647, 2147483648,
                                    2147483649, 4294967297,  INT64_MAX};
    static mcx11_t ride;
    size_t i;
    for (i = 0; i < sizeof tried / sizeof tried[0]; i++) {
        mcx11_season_timer(&ride, 1, 2, MCX11_SEASON_ONCE(tried[i]));
        mcx11_season_timer(&ride, 1, 2, MCX11_SEASON_EVERY(tried[i]));
        if (tried[i] < INT32_MIN || tried[i] > INT32_MAX)
            continue;
        mcx11_timer(&ride, 1, 2, MCX11_ONCE((int32_t)tried[i]));
        mcx11_timer(&ride, 1, 2, MCX11_EVERY((int32_t)tried[i]));
    }
    mcx11_season_timer(&ride, 1, 2, INT32_MIN);
    mcx11_season_timer(&ride, 1, 2, mcx11_milliseconds(1, 125)); /* a refusal is no tock value by itself */
    mcx11_season_timer(&ride, 1, 2, MCX11_SEASON_ONCE(mcx11_milliseconds(1, 125)));
    mcx11_call(&ride, MCX11_SEASON_TIMER, 1, 2, 5);
    return 0;
}
"#;

/// Tock values of both widths, from both sides of their ends: what there is not is 0, and the compiler's checks find nothing undefined.
#[test]
fn tock_values_are_the_numbers_asked_for_or_0() {
    let small = [i64::MIN, -2147483649, -10, 0, 1, 32767, 32768, 32769, 65536];
    let large = [2147483647, 2147483648, 2147483649, 4294967297, i64::MAX];
    let mut due = String::new();
    for n in small.into_iter().chain(large) {
        let within = |most: i64, value: i64| if (1..=most).contains(&n) { value } else { 0 };
        for value in [within((1 << 31) - 1, n), within(1 << 31, n.wrapping_neg())] {
            writeln!(due, "120102{:08X}", value as u32).unwrap();
        }
        if i32::try_from(n).is_ok() {
            for value in [within((1 << 15) - 1, n), within(1 << 15, -n)] {
                writeln!(due, "0E0102{:04X}", value as u16).unwrap();
            }
        }
    }
    let last = ["12010280000000", "120102FFFFFFF6", "12010200000000", "1201020005"];
    due.extend(last.map(|line| format!("{line}\n")));
    assert_eq!(told_by("tocks", TOCKS), due);
}

/// Of each value its enumerator in the header's enum, in small letters and without what all names begin with.
fn names(of: &str) -> Vec<String> {
    let header = text("host/mcx11.h");
    let body = header.split(&format!("enum mcx11_{of} {{")).nth(1).and_then(|rest| rest.split("};").next());
    let mut names = vec!["unknown".to_string(); 256];
    for line in body.expect("the enum").lines() {
        let Some((name, number)) = line.trim().strip_prefix("MCX11_").and_then(|line| line.split_once(" = ")) else {
            continue;
        };
        let number = number.split([',', ' ']).next().expect("a number");
        let number = number.strip_prefix("0x").map_or(number.parse(), |digits| usize::from_str_radix(digits, 16));
        names[number.expect("a number")] =
            name.replace("OUTCOME_", "").replace("NUMBER_", "").replace('_', " ").to_lowercase();
    }
    names
}

/// Every name that the header has as a text is the enumerator's, and what has no name is unknown.
#[test]
fn the_texts_are_the_enumerators_names() {
    let source = "#include \"mcx11.h\"\n#include <stdio.h>\nint main(void)\n{\n    int i;\n    for (i = 0; i < 256; i++)\n        \
                  printf(\"%s|%s|%s\\n\", mcx11_code_name((uint8_t)i), mcx11_outcome_name((uint8_t)i), \
                  mcx11_number_name((uint8_t)i));\n    return 0;\n}\n";
    let told = told_by("names", source);
    let all = ["code", "outcome_kind", "number"].map(names);
    let due = (0..256).map(|value| format!("{}|{}|{}", all[0][value], all[1][value], all[2][value]));
    assert!(told.lines().eq(due.clone()), "{:?}", told.lines().zip(due).find(|(ours, due)| ours != due));
}

/// Doxygen finds everything documented.
#[test]
#[cfg_attr(not(has_doxygen), ignore = "doxygen is missing")]
fn doxygen_reads_the_comments() {
    let ours = repository().join("host");
    let told = format!(
        "INPUT={}\nFILE_PATTERNS=*.h\nOUTPUT_DIRECTORY={}\nQUIET=YES\nGENERATE_LATEX=NO\nHAVE_DOT=NO\nEXTRACT_STATIC=YES\n\
         OPTIMIZE_OUTPUT_FOR_C=YES\nJAVADOC_AUTOBRIEF=YES\nPREDEFINED=MCX11_TRACE=trace MCX11_MODULE_TRACE=module_trace\n\
         MACRO_EXPANSION=YES\n",
        ours.display(),
        scratch("doxygen").display()
    );
    let output = run(Command::new("doxygen").arg("-"), told.as_bytes());
    let warnings = String::from_utf8_lossy(&output.stderr);
    let of_header: Vec<&str> = warnings.lines().filter(|line| line.contains(".h:")).collect();
    assert!(output.status.success() && of_header.is_empty(), "{of_header:#?}");
}

// ---- the readers of the state

/// The items of the state, and the pairs of the configuration frame, as tests/c/state.c prints what the header reads.
fn state(items: &Items, configuration: &Configuration, frame: &[u8]) -> String {
    let mut told = String::new();
    let ticks_left = configuration.ticks_per_tock - items.ticks;
    writeln!(told, "tasks {} ticks left {ticks_left} timers {}", items.tasks.len(), items.timers.len()).unwrap();
    let pairs = frame[8 + items.tasks.len() + 2 * items.queues.len()..].chunks_exact(2);
    let named = (1..).zip(pairs.clone()).filter(|(_, pair)| *pair != [0, 0]);
    let named: String = named.map(|(number, pair)| format!(" {number} {}-{}", pair[0], pair[1])).collect();
    writeln!(told, "pairs {}:{named}", pairs.len()).unwrap();
    for (index, task) in items.tasks.iter().enumerate() {
        let number = index as u8 + 1;
        let (blocks, own) = (bits(task.blocks), configuration.semaphore_of_task(number));
        let (mailbox, slot) = (items.mailboxes[index].len(), digits(&task.slot));
        writeln!(told, "task {number} blocks {blocks} own {own} mailbox {mailbox} slot {slot}").unwrap();
    }
    for (index, semaphore) in items.semaphores.iter().enumerate() {
        match semaphore {
            Semaphore::Pending => Ok(()),
            Semaphore::Done => writeln!(told, "semaphore {} DONE", index + 1),
            Semaphore::Waiting(task) => writeln!(told, "semaphore {} WAITING with {task}", index + 1),
        }
        .unwrap();
    }
    for (index, (held, size)) in items.queues.iter().zip(&configuration.queues).enumerate() {
        let entries: String = held.iter().map(|entry| format!(" {}", digits(entry))).collect();
        let (queue, count) = (index + 1, held.len());
        writeln!(told, "queue {queue} width {} depth {} holds {count}:{entries} none", size.width, size.depth).unwrap();
    }
    told + &timers(items) + "\n"
}

/// By task and semaphore. In damaged memory two may have the same; the first counts.
fn timers(items: &Items) -> String {
    let mut timers: Vec<_> = items.timers.iter().collect();
    timers.sort_by_key(|timer| (timer.task, timer.semaphore));
    timers.dedup_by_key(|timer| (timer.task, timer.semaphore));
    let due_or_cyclic = timers.iter().filter(|timer| timer.tocks_left != 0 || timer.period != 0);
    let line = |timer: &&_| {
        let plain_executive::items::TimerItem { task, semaphore, tocks_left, period } = **timer;
        format!("timer {task} {semaphore} left {tocks_left} period {period}\n")
    };
    due_or_cyclic.map(line).collect()
}

fn bits(blocks: Blocks) -> u8 {
    let all = [Block::Idle, Block::Suspended, Block::EventWait, Block::MessageWait];
    all.into_iter().filter(|&block| blocks.has(block)).map(|block| block as u8).sum()
}

fn digits(bytes: &[u8]) -> String {
    bytes.iter().map(|byte| format!("{byte:02X}")).collect()
}

/// The memories after some frames of a session, and the states that the other implementation has there.
fn of_session(caller: Caller, script: &Script, every: usize, memories: &mut Vec<u8>, states: &mut String) {
    let mut memory = Lent::of(caller, caller.sizes(), || 0xA5);
    let mut other = Executive::configure(&script.configuration).expect("accepted");
    assert_eq!(memory.configure(&script.configuration), 0);
    for (index, frame) in script.frames.iter().enumerate() {
        other.frame(frame);
        memory.frame(frame);
        if index % every == 0 {
            memories.extend(memory.blocks().concat());
            states.push_str(&state(&other.items(), other.configuration(), &script.configuration));
        }
    }
}

/// Timers of both widths, the longest among them, before and after a tock.
fn long_timers() -> Script {
    let timers: [&[u8]; 6] = [
        &[SEASON_TIMER, 1, 1, 0x80, 0, 0, 0],
        &[SEASON_TIMER, 1, 2, 0x7F, 0xFF, 0xFF, 0xFF],
        &[SEASON_TIMER, 1, 3, 0, 1, 0, 0],
        &[TIMER, 1, 4, 0x80, 0],
        &[TIMER, 1, 5, 0x7F, 0xFF],
        &[TICK, 0, 0, 0, 0],
    ];
    let configuration = [&[1, 6, 0, 8, 0, 1, 0, 1][..], &[0]].concat();
    Script { configuration, frames: timers.map(<[u8]>::to_vec).to_vec() }
}

fn the_readers_tell_the_other_implementations_state(caller: Caller) {
    let (mut memories, mut states) = (Vec::new(), String::new());
    of_session(caller, &long_timers(), 1, &mut memories, &mut states);
    if caller == Caller::Controller {
        of_session(caller, &cascade(), 3, &mut memories, &mut states);
    }
    for seed in 0..100 {
        let tasks = [1, 2, 5, 20, 126][seed as usize % 5].min(caller.limits().tasks);
        let script = Generator::within(caller.limits(), seed).script(tasks..=tasks, 300);
        of_session(caller, &script, 20, &mut memories, &mut states);
    }
    let due = "DONE|WAITING|holds 2|mailbox 2|blocks 4|blocks 8|blocks 1 |blocks 2 |timer|pairs 2:\
               |left 2147483648 period 2147483648|left 2147483647 period 2147483648|left 2147483646 period 0";
    for word in due.split('|') {
        assert!(states.contains(word), "never reached: {word}");
    }
    let folder = scratch(&format!("state {caller:?}"));
    for language in two_languages() {
        let program = built(&folder, "state.c", language, &[&["-O2"], of_caller(caller)].concat());
        same(&printed(&mut Command::new(&program), &memories), &states);
    }
    for language in languages() {
        built(&folder, "state.c", language, of_caller(caller));
    }
}

fn same(ours: &str, theirs: &str) {
    if let Some((ours, theirs)) = ours.lines().zip(theirs.lines()).find(|(ours, theirs)| ours != theirs) {
        panic!("the header reads\n{ours}\nand the other implementation has\n{theirs}");
    }
    assert_eq!(ours.lines().count(), theirs.lines().count());
}

/// Damaged memory that a frame would go on from means a state, and the readers tell that one; of any other memory they tell
/// something. They stay inside: the sanitizers of gcc find an index that is outside its block.
fn the_readers_stay_inside_whatever_the_memory_holds(caller: Caller) {
    let mut random = Random::new(23);
    let (mut good, mut states, mut bad) = (Vec::new(), String::new(), Vec::new());
    let mut another = Lent::of(caller, caller.sizes(), || 0);
    for seed in 0..400 {
        let script = Generator::within(caller.limits(), 9000 + seed).script(1..=12, 40);
        let mut memory = Lent::of(caller, caller.sizes(), || random.byte());
        assert_eq!(memory.configure(&script.configuration), 0);
        for frame in &script.frames {
            memory.frame(frame);
        }
        let left = memory.clone();
        damage(&mut random, &mut memory, &Configuration::read(&script.configuration).expect("accepted"), &another);
        another = left;
        if memory.blocks().map(<[u8]>::len) != caller.sizes() {
            continue;
        }
        match rules::configuration_of(&memory) {
            Some(configuration) if rules::broken(&memory).is_none() => {
                states.push_str(&state(&memory.items(&configuration), &configuration, memory.kept_frame()));
                good.extend(memory.blocks().concat());
            }
            _ => bad.extend(memory.blocks().concat()),
        }
        let mut any = Lent::of(caller, caller.sizes(), || random.byte());
        let Limits { tasks, queues, timers, messages, .. } = caller.limits();
        let counts = [tasks, 254, queues, timers, messages].map(|most| random.below(usize::from(most) + 2) as u8);
        any.config[FRAME..][..counts.len()].copy_from_slice(&counts);
        any.config[PART..FRAME].copy_from_slice(&(random.below(400) as u16).to_be_bytes());
        bad.extend(any.blocks().concat());
    }
    let size = caller.sizes().iter().sum::<usize>();
    assert!(good.len() > 100 * size && bad.len() > 390 * size, "{} good, {} bad", good.len() / size, bad.len() / size);
    let sanitized = ["-g", "-O1", "-fsanitize=address,undefined", "-fno-sanitize-recover=all"];
    let folder = scratch(&format!("inside {caller:?}"));
    let program = built(&folder, "state.c", two_languages()[0], &[&sanitized, of_caller(caller)].concat());
    same(&printed(&mut Command::new(&program), &good), &states);
    let told = printed(&mut Command::new(&program), &bad);
    let count = |word: &str, line: &str| line.strip_prefix(word)?.split([' ', ':']).next()?.parse::<usize>().ok();
    let [tasks, pairs] = ["tasks ", "pairs "].map(|word| told.lines().filter_map(move |line| count(word, line)));
    assert!(tasks.zip(pairs).eq(bad.chunks(size).map(|memory| tasks_and_pairs(caller, memory))));
}

/// T and the number of pairs, where the counts are a configuration's within the limits; else there is nothing to read. Pairs of a
/// frame that is too long for the block are none.
fn tasks_and_pairs(caller: Caller, memory: &[u8]) -> (usize, usize) {
    let most = caller.limits();
    let [tasks, named, queues, timers, messages] = *memory[FRAME..].first_chunk().expect("a memory");
    let few = tasks <= most.tasks && queues <= most.queues && timers <= most.timers && messages <= most.messages;
    let [tasks, named, queues] = [tasks, named, queues].map(usize::from);
    if !few || tasks == 0 || named + tasks + 2 * queues > 255 {
        return (0, 0);
    }
    let length = Some(kept_length(memory)).filter(|length| *length <= caller.longest());
    (tasks, length.map_or(0, |length| length.saturating_sub(8 + tasks + 2 * queues) / 2))
}
