//! The busiest stretch of a session: of w frames in a row those with the most reissues, the earliest if there are several. The
//! exported function finds it, and the other implementation must find the same.

use c::caller::Caller;
use c::stretch::{plain, Record};
use plain_executive::line::MOST_BYTES;
use plain_executive::numbers::Number;
use plain_executive::session::lines;
use plain_executive::stretch::{self, Busiest, MOST_RECORDS};

use crate::json::Json;
use crate::recording::Failure;
use crate::replay::{Replay, Step, Stop};
use crate::words::{counted, grouped};

/// The exported function; a test may hand in another.
pub type Find = fn(&mut [Record], usize) -> Result<Busiest, Number>;

#[derive(Debug, PartialEq, Eq)]
pub struct Stretch {
    pub reissues: u32,
    /// The first and the last.
    pub frames: (usize, usize),
    /// That had passed after these two.
    pub tocks: (u32, u32),
}

/// Of a caller's session whose configuration is accepted: one for each frame behind it, refused ones too.
pub fn records(caller: Caller, input: &[u8]) -> Result<Vec<Record>, Failure> {
    let mut rest = lines(input);
    let first = rest.next().unwrap_or_default();
    let mut replay = Replay::begin(caller, first).map_err(|why| (1, why))?;
    let mut room = [0; MOST_BYTES];
    let fed = |(place, line)| replay.feed(line, &mut room).map(|step| record(&step)).map_err(|why| (place + 2, why));
    rest.enumerate().map(fed).collect()
}

fn record(step: &Step) -> Record {
    let tocks = step.other.clock().tocks() as u32;
    Record { tocks, running: step.running(), padding: 0, reissues: step.answer[2].into() }
}

/// Of these records, as one function finds it and the other implementation too.
pub fn of(records: &mut [Record], w: usize, find: Find) -> Result<Stretch, Stop> {
    let other = stretch::busiest(&plain(records), w);
    let found = find(records, w);
    if found != other {
        return Err(Stop::Differs(format!("the busiest stretch of {w} is {found:?}; the other has {other:?}")));
    }
    let Busiest { sum, place } = found.map_err(Stop::Refused)?;
    let (first, last) = (place, place + w - 1);
    let tocks = (records[first].tocks, records[last].tocks);
    Ok(Stretch { reissues: sum, frames: (first + 1, last + 1), tocks })
}

/// Why there is no stretch of w among so many frames, and what to do.
pub fn rule(frames: usize, w: usize) -> String {
    let most = grouped(MOST_RECORDS);
    match frames {
        0 => "the session has no frame behind its configuration; leave the option out".to_string(),
        frames if frames > MOST_RECORDS => format!(
            "the session has {} frames, more than {most}; keep its first {} lines, the configuration and {most} frames",
            grouped(frames),
            grouped(MOST_RECORDS + 1)
        ),
        _ if w == 0 => format!("a stretch has 1 frame at least; say a number from 1 to {frames}"),
        _ => format!("the session has {}; say a number from 1 to {frames}", counted(frames, "frame")),
    }
}

impl Stretch {
    fn w(&self) -> usize {
        self.frames.1 - self.frames.0 + 1
    }

    /// At the end of the words, and in the page among the tables of the whole session.
    pub fn line(&self) -> String {
        let ((first, last), (from, to)) = (self.frames, self.tocks);
        let frames = if first == last { format!("#{first}") } else { format!("#{first} to #{last}") };
        let [from, to] = [from, to].map(|tocks| grouped(tocks as usize));
        let tocks = if from == to { format!("tock {from}") } else { format!("tocks {from} to {to}") };
        let reissues = counted(self.reissues as usize, "reissue");
        format!("busiest stretch of {}, {frames}: {reissues}, {tocks}", counted(self.w(), "frame"))
    }

    /// As the page has it.
    pub fn json(&self) -> Json {
        let label = format!("busiest stretch of {}: {}", grouped(self.w()), counted(self.reissues as usize, "reissue"));
        Json::Object(vec![
            ("from", self.frames.0.into()),
            ("to", self.frames.1.into()),
            ("label", label.into()),
            ("words", self.line().into()),
        ])
    }
}
