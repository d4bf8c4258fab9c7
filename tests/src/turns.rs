//! The turns of timers, counted from what a host sees: each frame, the number that came back, and the items before and behind it.
//! A turn is a tick that removes the timer as due and signals for it. Each timer is followed from its start on; one that is started
//! later for the same task and semaphore is another.

use crate::command::{starts_a_timer, PURGE, SEASON_TIMER, TERMINATE, TICK};
use crate::configuration::Configuration;
use crate::items::{Items, RequestItem, TimerItem};
use crate::numbers::Number;
use crate::semaphore::Semaphore;
use crate::tasks::Block;
use crate::tocks::{season_tock_value, tock_value, Tocks};

#[derive(Clone, Copy, Debug, PartialEq, Eq)]
pub enum Ended {
    /// It is there no longer, though no frame ended it: a one-shot that had its turn.
    Spent,
    Purged,
    /// With its task.
    Terminated,
}

#[derive(Clone, Copy, Debug, PartialEq, Eq)]
pub struct Followed {
    pub task: u8,
    pub semaphore: u8,
    /// That of the frame which started it.
    pub code: u8,
    pub value: Tocks,
    /// Those that passed since its start. Where a frame ended it, up to that frame.
    pub tocks: u64,
    pub turns: u64,
    /// The last frame was a turn of it.
    pub has_turn: bool,
    pub ended: Option<Ended>,
}

impl Followed {
    /// No frame ended it.
    pub fn is_spared(&self) -> bool {
        !matches!(self.ended, Some(Ended::Purged | Ended::Terminated))
    }

    pub fn runs(&self) -> bool {
        self.ended.is_none()
    }

    pub fn is_cyclic(&self) -> bool {
        matches!(self.value, Tocks::Cyclic(_))
    }

    /// The turns that its tocks ask for.
    pub fn asked_for(&self) -> u64 {
        match self.value {
            Tocks::OneShot(tocks) => u64::from(self.tocks >= tocks.into()),
            Tocks::Cyclic(period) => self.tocks / u64::from(period),
        }
    }

    pub fn is_of(&self, task: u8, semaphore: u8) -> bool {
        (self.task, self.semaphore) == (task, semaphore)
    }

    fn meet(&mut self, call: &Call) {
        self.tocks += u64::from(call.is_tock && self.is_spared());
        self.has_turn = self.runs() && self.is_removed_and_signals(call);
        self.turns += u64::from(self.has_turn);
        if self.runs() {
            let stays = self.left(call.after).is_some() && !call.starts(self);
            self.ended = call.ends(self).or((!stays).then_some(Ended::Spent));
        }
    }

    /// It has one tock left, a tock passes, and it does not stay with none left; and its semaphore is as signals leave it.
    fn is_removed_and_signals(&self, call: &Call) -> bool {
        let removed = self.left(call.before) == Some(1) && self.left(call.after) != Some(0);
        call.passes_tock() && removed && call.is_signalled(self.semaphore) && call.frees(self.semaphore)
    }

    fn left(&self, items: &Items) -> Option<u64> {
        let found = items.timers.iter().find(|timer| self.is_of(timer.task, timer.semaphore));
        found.map(|timer| timer.tocks_left)
    }
}

/// All timers of a session, in the order of their starts.
#[derive(Clone, Debug)]
pub struct Turns {
    configuration: Configuration,
    /// Those fed in the present tock, counted here: no tick is to be refused.
    ticks: u8,
    timers: Vec<Followed>,
}

impl Turns {
    /// Before the first frame.
    pub fn fresh(configuration: &Configuration) -> Self {
        Turns { configuration: configuration.clone(), ticks: 0, timers: Vec::new() }
    }

    /// To be told of every frame.
    pub fn watch(&mut self, frame: &[u8], number: Number, before: &Items, after: &Items) {
        self.timers.iter_mut().for_each(|timer| timer.has_turn = false);
        let is_tock = matches!(frame, [TICK, _, _, _, _]) && self.tick();
        if number != 0 {
            let spared = self.timers.iter_mut().filter(|timer| timer.is_spared());
            return spared.for_each(|timer| timer.tocks += u64::from(is_tock));
        }
        let call = Call { configuration: &self.configuration, frame, before, after, is_tock };
        self.timers.iter_mut().for_each(|timer| timer.meet(&call));
        self.timers.extend(call.started());
    }

    pub fn timers(&self) -> &[Followed] {
        &self.timers
    }

    pub fn of(&self, task: u8, semaphore: u8) -> impl DoubleEndedIterator<Item = &Followed> {
        self.timers.iter().filter(move |timer| timer.is_of(task, semaphore))
    }

    /// The first that has more turns than its tocks ask for, or fewer.
    pub fn wrong(&self) -> Option<&Followed> {
        self.timers.iter().find(|timer| timer.turns != timer.asked_for())
    }

    /// The items have the timers that run, and no others.
    pub fn follows_all(&self, items: &Items) -> bool {
        let running = self.timers.iter().filter(|timer| timer.runs());
        running.clone().count() == items.timers.len() && running.clone().all(|timer| timer.left(items).is_some())
    }

    /// Whether it is the K-th.
    fn tick(&mut self) -> bool {
        self.ticks = (self.ticks + 1) % self.configuration.ticks_per_tock;
        self.ticks == 0
    }
}

/// An accepted frame.
struct Call<'a> {
    configuration: &'a Configuration,
    frame: &'a [u8],
    before: &'a Items,
    after: &'a Items,
    /// It is the K-th tick, by the frames alone.
    is_tock: bool,
}

impl Call<'_> {
    /// By the ticks of the items, and not by those that are counted here.
    fn passes_tock(&self) -> bool {
        self.frame[0] == TICK && self.after.ticks == 0
    }

    /// As often as timers were due on it.
    fn is_signalled(&self, semaphore: u8) -> bool {
        let due = |timer: &&TimerItem| timer.semaphore == semaphore && timer.tocks_left == 1;
        let signals = self.before.timers.iter().filter(due).count();
        let [old, new] = [self.before, self.after].map(|items| items.semaphores[usize::from(semaphore) - 1]);
        match old {
            Semaphore::Waiting(_) if signals == 1 => new == Semaphore::Pending,
            _ => new == Semaphore::Done,
        }
    }

    /// A task that waited on it waits no longer, but for one whose open request settling may have issued again.
    fn frees(&self, semaphore: u8) -> bool {
        let Semaphore::Waiting(task) = self.before.semaphores[usize::from(semaphore) - 1] else { return true };
        let [old, new] = [self.before, self.after].map(|items| &items.tasks[usize::from(task) - 1]);
        old.request != RequestItem::None || !new.blocks.has(Block::EventWait)
    }

    /// 0 is the running task, the lowest without a block.
    fn task(&self) -> u8 {
        let running = || self.before.tasks.iter().position(|task| task.blocks.is_empty());
        match self.frame[1] {
            0 => running().map_or(0, |place| place as u8 + 1),
            task => task,
        }
    }

    /// Of a start or a purge.
    fn semaphore(&self) -> u8 {
        match self.frame[2] {
            0 => self.configuration.semaphore_of_task(self.task()),
            semaphore => semaphore,
        }
    }

    fn ends(&self, timer: &Followed) -> Option<Ended> {
        match self.frame[0] {
            TERMINATE if self.task() == timer.task => Some(Ended::Terminated),
            PURGE if self.task() == timer.task && self.purges(timer.semaphore) => Some(Ended::Purged),
            _ => None,
        }
    }

    fn purges(&self, semaphore: u8) -> bool {
        self.frame[4] == 0 || self.semaphore() == semaphore
    }

    /// Another for the same task and semaphore.
    fn starts(&self, timer: &Followed) -> bool {
        starts_a_timer(self.frame[0]) && timer.is_of(self.task(), self.semaphore())
    }

    fn started(&self) -> Option<Followed> {
        let code = self.frame[0];
        starts_a_timer(code).then(|| Followed {
            task: self.task(),
            semaphore: self.semaphore(),
            code,
            value: self.value(),
            tocks: 0,
            turns: 0,
            has_turn: false,
            ended: None,
        })
    }

    fn value(&self) -> Tocks {
        let value = match *self.frame {
            [SEASON_TIMER, _, _, a, b, c, d] => season_tock_value(u32::from_be_bytes([a, b, c, d])),
            _ => tock_value(u16::from_be_bytes([self.frame[3], self.frame[4]])),
        };
        value.expect("an accepted start has tocks")
    }
}
