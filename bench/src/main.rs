//! Measures the verified executive beside the other implementation on the same recorded sessions, and prints tables.

mod callers;
mod calls;
mod dear;
mod frames;
mod measure;
mod mixes;
mod session;
mod sessions;
mod stage;
mod starts;
mod storm;
mod stretch;
mod worst;

use measure::{Cost, Counted};
use session::Session;

fn main() {
    let arguments: Vec<String> = std::env::args().skip(1).collect();
    match arguments.as_slice() {
        [only] if only == worst::RUN_ALL => worst::run_all(),
        [only] if only == "worst" => return worst::print(),
        [only] if only == "callers" => return callers::print(),
        [only] if only == "stretch" => return stretch::print(),
        [only] if only == "starts" => return starts::print(),
        [only, count, w, who, calls] if only == stretch::RUN_ONE => stretch::run_one([count, w], who, calls),
        [only, place, who, calls] if only == starts::RUN_ONE => starts::run_one(place, who, calls),
        [who, file, before, frames] => {
            measure::run_one(who, file, before.parse().expect("a number"), frames == "frames")
        }
        _ => {}
    }
    let (recorded, random, growing) = (sessions::recorded(), mixes::random(), sessions::growing());
    for session in recorded.iter().chain(&random).chain(&growing) {
        session.check();
    }
    println!("Processor: {}\n", processor());
    for sessions in [&recorded, &random] {
        print(&["Session"], sessions);
        describe(sessions);
    }
    print(&["Frame", "T", "Runs", "Q", "Messages", "Timers"], &growing);
    callers::print();
    worst::print();
    stretch::print();
    starts::print();
}

fn processor() -> String {
    let all = std::fs::read_to_string("/proc/cpuinfo").unwrap_or_default();
    let name = all.lines().find_map(|line| line.strip_prefix("model name")?.split_once(':'));
    name.map_or("not known".to_string(), |(_, name)| name.trim().to_string())
}

const COSTS: [&str; 7] = ["ns", "other", "ratio", "instructions", "other", "ratio", "test for 11"];

fn print(heading: &[&str], sessions: &[Session]) {
    let columns: Vec<&str> = heading.iter().chain(&COSTS).copied().collect();
    println!("| {} |\n|{}", columns.join(" | "), "---|".repeat(columns.len()));
    for (session, time) in sessions.iter().zip(measure::nanoseconds(sessions)) {
        let counted = match measure::instructions(session) {
            Some(Counted { cost, test }) => format!("{} | {test:.0}, {:.0} %", cells(cost), 100.0 * test / cost.engine),
            None => "no valgrind | - | - | -".to_string(),
        };
        println!("| {} | {} | {counted} |", session.name, cells(time));
    }
    println!();
}

fn cells(cost: Cost) -> String {
    let ratio = cost.engine / cost.other;
    let digits = if ratio < 0.1 { 3 } else { 1 };
    format!("{:.0} | {:.0} | {ratio:.digits$}", cost.engine, cost.other)
}

/// What stands behind sessions.
fn describe(sessions: &[Session]) {
    println!(
        "| Session | Tasks before the running one | Messages that lie | Timers | Reissues | Refused |\n|{}",
        "---|".repeat(6)
    );
    for session in sessions {
        let mut other = session.other();
        let (mut sums, mut refused) = ([0; 4], 0);
        for frame in &session.frames {
            let configuration = other.configuration();
            let before = if other.running() == 0 { configuration.tasks } else { other.running() - 1 };
            let lying = (1..=configuration.messages).filter(|&message| other.mailboxes().holds(message)).count();
            let timers = other.timers().active().len();
            let answer = other.frame(frame);
            let held = [usize::from(before), lying, timers, answer.reissues().into()];
            sums = std::array::from_fn(|item| sums[item] + held[item]);
            refused += u32::from(answer.refusal() != 0);
        }
        let frames = session.frames.len() as f64;
        let means = sums.map(|sum| format!("{:.1}", sum as f64 / frames));
        let share = 100.0 * f64::from(refused) / frames;
        println!("| {} | {} | {share:.0} % |", session.name, means.join(" | "));
    }
    println!();
}
