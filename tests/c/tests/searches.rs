//! The searches for a message through the C functions, with up to all messages that lie: the one that a task receives at each place
//! and at none, sent at each place a second time, and a new one that goes in at each place. Against the other implementation.

use c::caller::Caller;
use c::compare::compare;
use plain_executive::answer;
use plain_executive::command::{RECEIVE, RESUME, SEND, SUSPEND};
use plain_executive::executive::Executive;
use plain_executive::generator::Script;
use plain_executive::numbers::MESSAGE_IN_MAILBOX;

type Frame = Vec<u8>;

c::for_each_caller!(
    received_among_messages_for_others,
    received_among_messages_from_others,
    sent_a_second_time,
    put_in_at_each_place,
);

/// A session of two tasks that are runnable, the first of which receives.
#[derive(Clone, Copy, Debug)]
struct Case {
    caller: Caller,
    /// The task that receives, behind it the other one; those before it are idle. Records for task 1 are told by another test than
    /// those for a task above it.
    own: u8,
    messages: u8,
    lying: u8,
    /// Behind the last where this is as many as lie.
    place: u8,
}

impl Case {
    fn each(caller: Caller, check: impl Fn(Case)) {
        let most = caller.limits().messages;
        for lying in [0, 1, 2, 3, most / 2, most - 2, most - 1, most] {
            let rooms = if lying == most { vec![most] } else { vec![lying, most] };
            for (own, messages) in [1, 2].into_iter().flat_map(|own| rooms.iter().map(move |&messages| (own, messages)))
            {
                (0..=lying).for_each(|place| check(Case { caller, own, messages, lying, place }));
            }
        }
    }

    fn other(self) -> u8 {
        self.own + 1
    }

    fn lies(self) -> bool {
        self.place < self.lying
    }

    /// All are for the other task but the one at the place.
    fn mail_for_both(self) -> Vec<Frame> {
        let to = |at: u8| if at == self.place { self.own } else { self.other() };
        (0..self.lying).map(|at| send(to(at), at + 1)).collect()
    }

    /// All are for the task that receives: its own up to the place, the other's from there on. It runs again.
    fn mail_from_both(self) -> Vec<Frame> {
        let sends = |places: std::ops::Range<u8>| places.map(|at| send(self.own, at + 1)).collect::<Vec<_>>();
        let suspends = vec![service(SUSPEND, 0)];
        let resumes = vec![service(RESUME, self.own)];
        [sends(0..self.place), suspends, sends(self.place..self.lying), resumes].concat()
    }

    /// Compares the session, and gives the number, the outcome's kind and the first byte of its value behind the last frame.
    fn last(self, frames: Vec<Frame>) -> (u8, u8, u8) {
        let states = (1..=self.other()).map(|task| u8::from(task < self.own));
        let configuration = [vec![self.other(), 1, 0, 0, self.messages, 1, 0, 1], states.collect()].concat();
        let script = Script { configuration, frames };
        compare(self.caller, &script, &|memory, frame| memory.frame(frame), &format!("{self:?}"));
        let mut other = Executive::configure(&script.configuration).expect("accepted");
        let answers: Vec<_> = script.frames.iter().map(|frame| other.frame(frame)).collect();
        let answer = answers.last().expect("a frame");
        (answer.refusal(), answer.kind(), answer.bytes().get(4).copied().unwrap_or(0))
    }
}

fn service(code: u8, task: u8) -> Frame {
    vec![code, task, 0, 0, 0]
}

/// The running task's message, by semaphore 1.
fn send(to: u8, message: u8) -> Frame {
    vec![SEND, to, 1, 0, message]
}

fn with(mut frames: Vec<Frame>, last: Frame) -> Vec<Frame> {
    frames.push(last);
    frames
}

/// The message at the place is received; where none is, the other task runs, with an outcome of this kind.
fn is_received(case: Case, mail: Vec<Frame>, from: u8, otherwise: u8) {
    let received = case.last(with(mail, service(RECEIVE, from)));
    let expected = if case.lies() { (0, answer::MESSAGE, case.place + 1) } else { (0, otherwise, 0) };
    assert_eq!(received, expected, "{case:?}, from {from}");
}

fn received_among_messages_for_others(caller: Caller) {
    Case::each(caller, |case| {
        [0, case.own].into_iter().for_each(|from| is_received(case, case.mail_for_both(), from, answer::BEGIN))
    });
}

fn received_among_messages_from_others(caller: Caller) {
    Case::each(caller, |case| is_received(case, case.mail_from_both(), case.other(), answer::PLAIN));
}

fn sent_a_second_time(caller: Caller) {
    Case::each(caller, |case| {
        if case.lies() {
            let refused = case.last(with(case.mail_for_both(), send(case.own, case.place + 1)));
            assert_eq!(refused.0, MESSAGE_IN_MAILBOX, "{case:?}");
        }
    });
}

/// A new message goes in before those from the higher sender: the task receives from the first on, and it comes at its place.
fn put_in_at_each_place(caller: Caller) {
    Case::each(caller, |case| {
        if case.lying < case.messages {
            let sent = with(case.mail_from_both(), send(case.own, case.lying + 1));
            let receives = (0..=case.place).map(|_| service(RECEIVE, 0)).collect();
            assert_eq!(case.last([sent, receives].concat()), (0, answer::MESSAGE, case.lying + 1), "{case:?}");
        }
    });
}
