//! Values as the ledger's definitions write them.

use plain_executive::items::{Items, OutcomeItem, RequestItem, TaskItem, TimerItem};
use plain_executive::semaphore::Semaphore;
use plain_executive::tasks::{Block, Letter};
use plain_executive::tocks::Tocks;
use plain_executive::turns::Followed;

pub fn list(items: impl IntoIterator<Item = String>) -> String {
    let mut text = String::from("(");
    for item in items {
        text += &item;
        text += " ∷ ";
    }
    text + "[])"
}

/// The digits of a line, between quotation marks.
pub fn digits(bytes: &[u8]) -> String {
    let digits: String = bytes.iter().map(|byte| format!("{byte:02X}")).collect();
    format!("\"{digits}\"")
}

pub fn bytes(bytes: &[u8]) -> String {
    format!("(hex {})", digits(bytes))
}

pub fn items(items: &Items) -> String {
    let mailbox = |letters: &Vec<Letter>| list(letters.iter().map(letter));
    let queue = |entries: &Vec<Vec<u8>>| list(entries.iter().map(|entry| bytes(entry)));
    let fields = [
        format!("ticks = {}", items.ticks),
        format!("tasks = {}", list(items.tasks.iter().map(task))),
        format!("semaphores = {}", list(items.semaphores.iter().map(semaphore))),
        format!("mailboxes = {}", list(items.mailboxes.iter().map(mailbox))),
        format!("queues = {}", list(items.queues.iter().map(queue))),
        format!("timers = {}", list(items.timers.iter().map(timer))),
    ];
    format!("record {{ {}; }}", fields.join("; "))
}

fn task(task: &TaskItem) -> String {
    let blocks = [Block::Idle, Block::Suspended, Block::EventWait, Block::MessageWait];
    let blocks = blocks.map(|block| task.blocks.has(block).to_string()).join(" ");
    let (outcome, request) = (outcome(&task.outcome), request(&task.request));
    format!("task {blocks} {outcome} {} {request}", digits(&task.slot))
}

fn outcome(outcome: &OutcomeItem) -> String {
    match outcome {
        OutcomeItem::Plain => "plain".into(),
        OutcomeItem::Begin => "begin".into(),
        OutcomeItem::Message(letter) => format!("(message {} {} {})", letter.message, letter.sender, letter.semaphore),
        OutcomeItem::Entry(entry) => format!("(entry {})", bytes(entry)),
        OutcomeItem::Refused(number) => format!("(refused {number})"),
        OutcomeItem::Semaphore(number) => format!("(semaphore {number})"),
        OutcomeItem::Woke(task) => format!("(woke {task})"),
    }
}

fn request(request: &RequestItem) -> String {
    match request {
        RequestItem::None => "none".into(),
        RequestItem::Receive(from) => format!("(receive {from})"),
        RequestItem::Dequeue(queue) => format!("(dequeue {queue})"),
        RequestItem::Enqueue(queue, entry) => format!("(enqueue {queue} {})", bytes(entry)),
    }
}

fn semaphore(semaphore: &Semaphore) -> String {
    match semaphore {
        Semaphore::Pending => "PENDING".into(),
        Semaphore::Done => "DONE".into(),
        Semaphore::Waiting(task) => format!("WAITING {task}"),
    }
}

fn letter(letter: &Letter) -> String {
    format!("letter {} {} {}", letter.message, letter.sender, letter.semaphore)
}

fn timer(timer: &TimerItem) -> String {
    format!("timer {} {} {} {}", timer.task, timer.semaphore, timer.tocks_left, timer.period)
}

pub fn tocks(value: Tocks) -> String {
    match value {
        Tocks::OneShot(tocks) => format!("one_shot {tocks}"),
        Tocks::Cyclic(period) => format!("cyclic {period}"),
    }
}

pub fn followed(timer: &Followed) -> String {
    let spared = timer.is_spared();
    let tocks = if spared { timer.tocks } else { 0 };
    let value = self::tocks(timer.value);
    format!("started {} {} ({value}) {} {spared} {tocks}", timer.task, timer.semaphore, timer.turns)
}
