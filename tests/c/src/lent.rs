//! Memory of one's own for the executive's C functions, and the items read out of that memory as docs/MEMORY.md says.

use std::ops::Range;

use plain_executive::configuration::{Configuration, QueueSize};
use plain_executive::items::{Items, OutcomeItem, RequestItem, TaskItem, TimerItem};
use plain_executive::numbers::Number;
use plain_executive::semaphore::Semaphore;
use plain_executive::tasks::{self, Block, Letter};

use crate::caller::{Blocks, Caller};

/// The least sizes of the controller's blocks.
pub const SIZES: [usize; 5] = Caller::Controller.sizes();

/// The answer's size, the same for every caller.
const ANSWER: usize = SIZES[4];

/// The marks at both ends of the first four.
pub const MARKS: [[u8; 4]; 4] = [*b"MCXC", *b"MCXT", *b"MCXS", *b"MCXR"];

/// Where the part of a block begins, behind its mark; in config the frame's length lies there, and then the frame.
pub const PART: usize = 4;
pub const FRAME: usize = 6;

/// In the tables: the ticks left, the messages that lie, the planes of the tasks' blocks, and the bytes of one plane.
pub const TICKS: usize = PART;
pub const COUNT: usize = PART + 1;
pub const PLANES: usize = PART + 2;
pub const PLANE: usize = 16;

/// The five blocks that a caller lends.
#[derive(Clone, Debug, PartialEq, Eq)]
pub struct Lent {
    pub caller: Caller,
    pub config: Vec<u8>,
    pub tables: Vec<u8>,
    pub slots: Vec<u8>,
    pub timers: Vec<u8>,
    pub answer: Vec<u8>,
}

impl Lent {
    /// A caller's, of these sizes, each byte as told.
    pub fn of(caller: Caller, sizes: [usize; 5], mut byte: impl FnMut() -> u8) -> Self {
        let [config, tables, slots, timers, answer] = sizes.map(|size| (0..size).map(|_| byte()).collect());
        Lent { caller, config, tables, slots, timers, answer }
    }

    pub fn blocks(&self) -> [&[u8]; 5] {
        [&self.config, &self.tables, &self.slots, &self.timers, &self.answer]
    }

    pub fn blocks_mut(&mut self) -> [&mut Vec<u8>; 5] {
        [&mut self.config, &mut self.tables, &mut self.slots, &mut self.timers, &mut self.answer]
    }

    /// As the C functions take them.
    pub fn lend(&mut self) -> Blocks<'_> {
        self.blocks_mut().map(Vec::as_mut_slice)
    }

    pub fn configure(&mut self, frame: &[u8]) -> Number {
        self.caller.configure(frame, self.lend())
    }

    pub fn frame(&mut self, frame: &[u8]) -> Number {
        self.caller.feed(frame, self.lend())
    }

    /// The answer to the last call.
    pub fn answered(&self) -> &[u8] {
        &self.answer[1..=usize::from(self.answer[0])]
    }

    /// The frame that the config block keeps, as far as the block has it.
    pub fn kept_frame(&self) -> &[u8] {
        kept_frame(&self.config)
    }

    /// What the config block keeps behind the queues: the pairs, two by two.
    pub fn pair_bytes(&self, configuration: &Configuration) -> &[u8] {
        &self.kept_frame()[pairs_at(configuration) - FRAME..]
    }

    /// Four bytes of a row of the timers' block, low byte first. Row 0 is the clock: at 2 the time, at 6 the floor.
    pub fn of_timers(&self, row: usize, place: usize) -> u32 {
        let from = timer_row(row) + place;
        u32::from_le_bytes(self.timers[from..from + 4].try_into().expect("4 bytes"))
    }

    /// What the memory means, whatever its bytes are; its sizes are right, and its configuration is this one.
    pub fn items(&self, configuration: &Configuration) -> Items {
        Reader::new(self, configuration).items()
    }
}

/// The frame in such a block, as far as the block has it.
pub fn kept_frame(config: &[u8]) -> &[u8] {
    let behind = config.get(FRAME..).unwrap_or(&[]);
    &behind[..behind.len().min(kept_length(config))]
}

/// Where the pairs lie in it, behind the queues.
pub fn pairs_at(configuration: &Configuration) -> usize {
    FRAME + 8 + usize::from(configuration.tasks) + 2 * configuration.queues.len()
}

/// The length that such a block keeps.
pub fn kept_length(config: &[u8]) -> usize {
    let [high, low] = [PART, PART + 1].map(|place| config.get(place).copied().unwrap_or(0));
    u16::from_be_bytes([high, low]).into()
}

/// Where a row of the timers lies.
pub const fn timer_row(row: usize) -> usize {
    PART + 1 + 10 * row
}

/// Where a slot lies; the first task has index 0.
pub fn slot(index: usize) -> usize {
    PART + 16 * index
}

/// Both marks of a block of this size.
pub fn ends(size: usize) -> [Range<usize>; 2] {
    [0..4, size - 4..size]
}

/// The bytes of each block that a configuration needs, behind the first mark. All of the answer is one part.
pub fn parts(configuration: &Configuration) -> [Range<usize>; 5] {
    let ends = [
        pairs_at(configuration) + 2 * configuration.pairs.len(),
        Regions::of(configuration).end,
        slot(configuration.tasks.into()),
        timer_row(1 + usize::from(configuration.timers)),
    ];
    let [config, tables, slots, timers] = ends.map(|end| PART..end);
    [config, tables, slots, timers, 0..ANSWER]
}

/// Where the regions of the tables begin in their block, and where the last of them ends.
#[derive(Clone, Copy, Debug)]
pub struct Regions {
    pub records: usize,
    pub semaphores: usize,
    pub waiting: usize,
    pub rings: usize,
    pub messages: usize,
    pub entries: usize,
    pub end: usize,
}

impl Regions {
    pub fn of(configuration: &Configuration) -> Self {
        let tasks = usize::from(configuration.tasks);
        let records = PLANES + 4 * PLANE;
        let semaphores = records + 6 * tasks;
        let waiting = semaphores + usize::from(configuration.semaphores());
        let rings = waiting + 16 * tasks;
        let messages = rings + 2 * configuration.queues.len();
        let entries = messages + 4 * usize::from(configuration.messages);
        let end = entries + configuration.queues.iter().map(QueueSize::bytes).sum::<usize>();
        Regions { records, semaphores, waiting, rings, messages, entries, end }
    }
}

struct Reader<'lent> {
    lent: &'lent Lent,
    configuration: &'lent Configuration,
    regions: Regions,
}

impl<'lent> Reader<'lent> {
    fn new(lent: &'lent Lent, configuration: &'lent Configuration) -> Self {
        Reader { lent, configuration, regions: Regions::of(configuration) }
    }

    fn items(&self) -> Items {
        let tasks = usize::from(self.configuration.tasks);
        let ticks = self.configuration.ticks_per_tock;
        let ticks_left = if (1..=ticks).contains(&self.at(TICKS)) { self.at(TICKS) } else { ticks };
        Items {
            ticks: ticks - ticks_left,
            tasks: (0..tasks).map(|index| self.task(index)).collect(),
            semaphores: (0..usize::from(self.configuration.semaphores())).map(|index| self.semaphore(index)).collect(),
            mailboxes: self.mailboxes(tasks),
            queues: self.queues(),
            timers: self.timers(),
        }
    }

    fn at(&self, index: usize) -> u8 {
        self.lent.tables[index]
    }

    fn bytes(&self, from: usize, count: usize) -> Vec<u8> {
        self.lent.tables[from..from + count].to_vec()
    }

    fn letter(&self, from: usize) -> Letter {
        Letter { message: self.at(from), sender: self.at(from + 1), semaphore: self.at(from + 2) }
    }

    fn task(&self, index: usize) -> TaskItem {
        let record = self.regions.records + 6 * index;
        let slot: [u8; 16] = self.lent.slots[slot(index)..slot(index + 1)].try_into().expect("16 bytes");
        TaskItem {
            blocks: self.blocks(index),
            outcome: self.outcome(record, &slot),
            slot,
            request: self.request(record + 4, self.regions.waiting + 16 * index),
        }
    }

    fn blocks(&self, index: usize) -> tasks::Blocks {
        let all = [Block::Idle, Block::Suspended, Block::EventWait, Block::MessageWait];
        let plane = |number: usize| self.at(PLANES + PLANE * number + index / 8);
        let held = all.into_iter().enumerate().filter(|(number, _)| plane(*number) >> (index % 8) & 1 == 1);
        tasks::Blocks::of(held.map(|(_, block)| block))
    }

    fn outcome(&self, record: usize, slot: &[u8; 16]) -> OutcomeItem {
        match self.at(record) {
            1 => OutcomeItem::Begin,
            2 => OutcomeItem::Message(self.letter(record + 1)),
            3 => OutcomeItem::Entry(slot[..usize::from(self.at(record + 1)).min(16)].to_vec()),
            4 => OutcomeItem::Refused(self.at(record + 1)),
            5 => OutcomeItem::Semaphore(self.at(record + 1)),
            6 => OutcomeItem::Woke(self.at(record + 1)),
            _ => OutcomeItem::Plain,
        }
    }

    fn request(&self, record: usize, waiting: usize) -> RequestItem {
        let named = self.at(record + 1);
        let is_queue = (1..=self.configuration.queue_count()).contains(&named);
        match self.at(record) {
            1 => RequestItem::Receive(named),
            2 if is_queue => RequestItem::Dequeue(named),
            3 if is_queue => RequestItem::Enqueue(named, self.bytes(waiting, self.configuration.width(named))),
            _ => RequestItem::None,
        }
    }

    fn semaphore(&self, index: usize) -> Semaphore {
        match self.at(self.regions.semaphores + index) {
            0 => Semaphore::Pending,
            task if task <= self.configuration.tasks => Semaphore::Waiting(task),
            _ => Semaphore::Done,
        }
    }

    fn mailboxes(&self, tasks: usize) -> Vec<Vec<Letter>> {
        let mut mailboxes = vec![Vec::new(); tasks];
        for index in 0..usize::from(self.at(COUNT).min(self.configuration.messages)) {
            let record = self.regions.messages + 4 * index;
            let task = if (1..=tasks).contains(&self.at(record).into()) { self.at(record).into() } else { 1 };
            mailboxes[task - 1].push(self.letter(record + 1));
        }
        mailboxes
    }

    fn queues(&self) -> Vec<Vec<Vec<u8>>> {
        let mut places = self.regions.entries;
        let mut queues = Vec::new();
        for (index, size) in self.configuration.queues.iter().enumerate() {
            let (width, depth) = (usize::from(size.width), usize::from(size.depth));
            let ring = self.regions.rings + 2 * index;
            let oldest = if self.at(ring) < size.depth { usize::from(self.at(ring)) } else { 0 };
            let held = usize::from(self.at(ring + 1).min(size.depth));
            let entry = |turn: usize| self.bytes(places + (oldest + turn) % depth * width, width);
            queues.push((0..held).map(entry).collect());
            places += width * depth;
        }
        queues
    }

    /// A timer is due at the time in its row, but no later than those behind it and not before the floor.
    fn timers(&self) -> Vec<TimerItem> {
        let number = usize::from(self.lent.timers[PART].min(self.configuration.timers));
        let (time, floor) = (self.lent.of_timers(0, 2), self.lent.of_timers(0, 6));
        let mut due = u32::MAX;
        let mut timers = Vec::new();
        for row in (1..=number).rev() {
            due = due.min(self.lent.of_timers(row, 2));
            let tocks_left = u64::from(due.max(floor).saturating_sub(time));
            let [task, semaphore] = [0, 1].map(|place| self.lent.timers[timer_row(row) + place]);
            timers.push(TimerItem { task, semaphore, tocks_left, period: self.lent.of_timers(row, 6) });
        }
        timers.reverse();
        timers
    }
}
