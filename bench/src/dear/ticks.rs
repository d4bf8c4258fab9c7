//! All timers are due at once.

use super::ENDS;
use crate::frames::tick;
use crate::session::Session;
use crate::stage::{Ends, Size};
use crate::storm::{alarm, size_name};

/// So many timers have one period, the longest first.
const GROUPS: [&[u8]; 8] = [&[64], &[1; 64], &[1, 63], &[3, 61], &[1, 1, 1, 61], &[16, 48], &[32, 32], &[61, 3]];

pub fn all(size: Size) -> Vec<Session> {
    let session = |groups: &&[u8], ends: Ends| {
        let woken = format!("wake 63 receivers and a {}, that a {}", ends.passing(), ends.waiting());
        let name = format!("64 cyclic timers, periods {}, {woken}; {}", periods(groups), size_name(size));
        alarm(size, ends, groups).session(name, tick())
    };
    GROUPS.iter().flat_map(|groups| ENDS.map(|ends| session(groups, ends))).collect()
}

fn periods(groups: &[u8]) -> String {
    if groups.len() == 64 {
        return "64 to 1".to_string();
    }
    let longest = groups.len();
    let each = |(turn, many): (usize, &u8)| format!("{many} × {}", longest - turn);
    groups.iter().enumerate().map(each).collect::<Vec<_>>().join(", ")
}
