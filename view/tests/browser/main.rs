//! The page in a real browser, Debian's chromium without a window.

mod chromium;
mod expected;
mod lively;
mod looks;
mod pictures;
mod stretch;
mod uses;
mod value;

use std::fs;
use std::path::{Path, PathBuf};
use std::sync::{Mutex, MutexGuard, PoisonError};

use c::caller::Caller;
use chromium::Browser;
use view::busiest::{self, Stretch};
use view::names::Names;
use view::page;

pub fn repository() -> PathBuf {
    Path::new(env!("CARGO_MANIFEST_DIR")).join("..")
}

pub fn story(name: &str) -> Vec<u8> {
    fs::read(repository().join("examples").join(name).with_extension("session")).expect("a story")
}

/// One browser at a time: what is measured in it is not to be disturbed.
static ONE: Mutex<()> = Mutex::new(());

pub struct Opened {
    pub browser: Browser,
    _alone: MutexGuard<'static, ()>,
}

/// A browser of 1280 by 800 pixels, which must be there.
pub fn browser(name: &str) -> Opened {
    let alone = ONE.lock().unwrap_or_else(PoisonError::into_inner);
    let program =
        chromium::program().expect("chromium is missing: 'apt-get install chromium', or leave out '--test browser'");
    let mut browser = Browser::start(&program, name);
    browser.size(1280, 800);
    Opened { browser, _alone: alone }
}

/// Writes the page of some sessions of the controller.
pub fn page_of(name: &str, sessions: &[(&str, &[u8])], names: &str) -> PathBuf {
    page_of_caller(Caller::Controller, name, sessions, names)
}

pub fn page_of_caller(caller: Caller, name: &str, sessions: &[(&str, &[u8])], names: &str) -> PathBuf {
    let names = Names::read(names).expect("names");
    written(name, &page::make(caller, sessions, &names, &[]).expect("a page").html)
}

/// With the busiest stretch of w frames of each.
pub fn page_with_stretches(name: &str, sessions: &[(&str, &[u8])], w: usize) -> PathBuf {
    let stretches: Vec<Stretch> = sessions.iter().map(|(_, input)| busiest_of(input, w)).collect();
    let made = page::make(Caller::Controller, sessions, &Names::default(), &stretches);
    written(name, &made.expect("a page").html)
}

pub fn busiest_of(input: &[u8], w: usize) -> Stretch {
    let mut records = busiest::records(Caller::Controller, input).expect("no difference");
    busiest::of(&mut records, w, c::stretch::busiest).expect("found")
}

fn written(name: &str, html: &str) -> PathBuf {
    let path = Path::new(env!("CARGO_TARGET_TMPDIR")).join(format!("{name}.html"));
    fs::write(&path, html).expect("written");
    path
}
