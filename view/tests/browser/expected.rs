//! What the page must show of a state, worked out from the other implementation's items.

use plain_executive::configuration::Configuration;
use plain_executive::executive::Executive;
use plain_executive::items::{OutcomeItem, RequestItem, TaskItem};
use plain_executive::line;
use plain_executive::numbers::Number;
use plain_executive::semaphore::Semaphore;
use plain_executive::session::lines;
use plain_executive::tasks::{Block, Blocks, Letter};
use view::words::{counted, hex};

/// One state after each frame, the configuration's first.
pub fn states(input: &[u8]) -> Vec<Executive> {
    let mut lines = lines(input);
    let mut executive = Executive::configure(&line::read(lines.next().unwrap()).unwrap()).unwrap();
    let mut states = vec![executive.clone()];
    for line in lines {
        let read: Result<Vec<u8>, Number> = line::read(line);
        if let Ok(frame) = read {
            executive.frame(&frame);
        }
        states.push(executive.clone());
    }
    states
}

/// The name of the colour of each lane, task 1's first and the null task's last.
pub fn lanes(executive: &Executive) -> Vec<&'static str> {
    let running = executive.running();
    let lane = |task: u8| match executive.tasks().get(task).blocks() {
        blocks if blocks.has(Block::Idle) => "idle",
        blocks if blocks.has(Block::Suspended) => "suspended",
        blocks if blocks.has(Block::EventWait) => "event",
        blocks if blocks.has(Block::MessageWait) => "message",
        _ if task == running => "running",
        _ => "ready",
    };
    let mut lanes: Vec<&str> = (1..=executive.configuration().tasks).map(lane).collect();
    lanes.push(if running == 0 { "running" } else { "none" });
    lanes
}

/// All tables' rows: table, what the row is about, and its cells, with | between.
pub fn tables(executive: &Executive) -> Vec<String> {
    let configuration = executive.configuration();
    let items = executive.items();
    let mut rows = Vec::new();
    for (number, task) in (1..).zip(&items.tasks) {
        let waits = waits_for(configuration, &items.semaphores, number, task);
        let state = state(task.blocks, executive.running() == number);
        let (request, outcome) = (request(&task.request), outcome(configuration, &task.outcome));
        rows.push(format!("tasks t{number}|{state}|{waits}|{request}|{outcome}|{}", slot(&task.slot)));
    }
    for (number, state) in (1..).zip(&items.semaphores) {
        match state {
            Semaphore::Pending => {}
            Semaphore::Done => rows.push(format!("semaphores s{number}|DONE")),
            Semaphore::Waiting(task) => rows.push(format!("semaphores s{number}|WAITING with task {task}")),
        }
    }
    for (number, letters) in (1..).zip(&items.mailboxes) {
        let told: Vec<String> = letters.iter().map(|letter| self::letter(configuration, letter)).collect();
        if !told.is_empty() {
            rows.push(format!("mailboxes t{number}|{}", told.join("; ")));
        }
    }
    for (number, (entries, size)) in (1..).zip(items.queues.iter().zip(&configuration.queues)) {
        let told: Vec<String> = entries.iter().map(|entry| hex(entry)).collect();
        let told = if told.is_empty() { "none".to_string() } else { told.join(" ") };
        rows.push(format!("queues q{number}|{} of {}|{told}", entries.len(), size.depth));
    }
    for timer in &items.timers {
        let again = match timer.period {
            0 => "once".to_string(),
            period => format!("every {}", counted(period as usize, "tock")),
        };
        let left = counted(timer.tocks_left as usize, "tock");
        rows.push(format!("timers t{} s{}|{left}|{again}", timer.task, timer.semaphore));
    }
    rows
}

fn state(blocks: Blocks, runs: bool) -> String {
    let names = [
        (Block::Idle, "idle"),
        (Block::Suspended, "suspended"),
        (Block::EventWait, "event wait"),
        (Block::MessageWait, "message wait"),
    ];
    let held: Vec<&str> = names.into_iter().filter(|(block, _)| blocks.has(*block)).map(|(_, name)| name).collect();
    match (held.is_empty(), runs) {
        (false, _) => held.join(", "),
        (true, true) => "running".to_string(),
        (true, false) => "ready".to_string(),
    }
}

fn waits_for(configuration: &Configuration, semaphores: &[Semaphore], number: u8, task: &TaskItem) -> String {
    if task.blocks.has(Block::EventWait) {
        let place = semaphores.iter().position(|state| *state == Semaphore::Waiting(number)).expect("it waits");
        let semaphore = place as u8 + 1;
        return match queue_of(configuration, semaphore) {
            None => format!("semaphore {semaphore}"),
            Some((queue, true)) => format!("room in queue {queue}"),
            Some((queue, false)) => format!("an entry of queue {queue}"),
        };
    }
    match task.request {
        _ if !task.blocks.has(Block::MessageWait) => String::new(),
        RequestItem::Receive(from) if from != 0 => format!("a message from task {from}"),
        _ => "a message".to_string(),
    }
}

/// The queue of a semaphore, and whether it is not-full.
fn queue_of(configuration: &Configuration, semaphore: u8) -> Option<(u8, bool)> {
    (1..=configuration.queue_count()).find_map(|queue| {
        let sides = [(configuration.not_empty(queue), false), (configuration.not_full(queue), true)];
        sides.into_iter().find(|(number, _)| *number == semaphore).map(|(_, full)| (queue, full))
    })
}

fn named(configuration: &Configuration, semaphore: u8) -> String {
    match queue_of(configuration, semaphore) {
        None => format!("semaphore {semaphore}"),
        Some((queue, full)) => format!("{} of queue {queue}", if full { "not-full" } else { "not-empty" }),
    }
}

fn letter(configuration: &Configuration, letter: &Letter) -> String {
    let Letter { message, sender, semaphore } = letter;
    format!("message {message} from task {sender} with {}", named(configuration, *semaphore))
}

fn request(request: &RequestItem) -> String {
    match request {
        RequestItem::None => "none".to_string(),
        RequestItem::Receive(0) => "receive from any task".to_string(),
        RequestItem::Receive(from) => format!("receive from task {from}"),
        RequestItem::Dequeue(queue) => format!("dequeue of queue {queue}"),
        RequestItem::Enqueue(queue, entry) => format!("enqueue of {} into queue {queue}", hex(entry)),
    }
}

fn outcome(configuration: &Configuration, outcome: &OutcomeItem) -> String {
    match outcome {
        OutcomeItem::Plain => "plain".to_string(),
        OutcomeItem::Begin => "begin".to_string(),
        OutcomeItem::Message(message) => letter(configuration, message),
        OutcomeItem::Entry(entry) => format!("entry {}", hex(entry)),
        OutcomeItem::Refused(number) => format!("refused {number}"),
        OutcomeItem::Semaphore(number) => named(configuration, *number),
        OutcomeItem::Woke(0) => "woke nobody".to_string(),
        OutcomeItem::Woke(task) => format!("woke task {task}"),
    }
}

/// Without the zeros at its end, which are told as 00 and three dots.
fn slot(slot: &[u8; 16]) -> String {
    let used = slot.iter().rposition(|byte| *byte != 0).map_or(0, |last| last + 1);
    let digits = hex(&slot[..used]);
    if used == 16 {
        digits
    } else {
        format!("{digits}00\u{2026}")
    }
}
