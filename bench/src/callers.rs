//! What a frame costs through the module's entry, beside the controller's, in sessions that both have room for.

use c::caller::Caller;

use crate::measure::{instructions_of, ENGINE, MODULE};
use crate::mixes;
use crate::session::Session;
use crate::sessions;

pub fn print() {
    println!("| Session | Instructions, controller | Instructions, module |\n|{}", "---|".repeat(3));
    for session in sessions::for_module().into_iter().chain([mixes::session(16, 4)]) {
        Caller::ALL.into_iter().for_each(|caller| session.check_of(caller));
        println!("| {} | {} | {} |", session.name, cell(&session, ENGINE), cell(&session, MODULE));
    }
    println!();
}

fn cell(session: &Session, who: &str) -> String {
    instructions_of(session, who).map_or("no valgrind".to_string(), |count| format!("{count:.0}"))
}
