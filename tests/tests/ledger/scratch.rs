//! A scratch repository with the ledger's definitions and the facts, and the checker's verdict on it.

use std::path::{Path, PathBuf};
use std::process::Command;
use std::{env, fs, process};

use crate::compared::COMPARED;
use crate::facts::Fact;
use crate::followed::FOLLOWED;

const LIBRARY: &str = "// Random sessions.\n#![tactic(auto)]\n";
const CRATES: &str = "ledger:\nsessions: ledger\n";

/// Facts that stand in one file, behind what they all need.
pub type File = (&'static str, Vec<Fact>);

/// Has the checker prove the facts. The error tells the first difference.
pub fn check(name: &str, files: &[File]) -> Result<(), String> {
    let ledger = Path::new(env!("CARGO_MANIFEST_DIR")).join("../crates/ledger");
    let scratch = Scratch::new(name);
    write_ledger(&ledger, &scratch.0.join("crates/ledger"));
    write_sessions(&scratch.0, files);
    let output = Command::new("rt")
        .arg("check")
        .current_dir(scratch.0.join("crates/sessions"))
        .output()
        .map_err(|error| format!("`rt`, the checker of the Rattle kit, must be on the PATH: {error}"))?;
    if output.status.success() {
        return Ok(());
    }
    let printed = [output.stdout, output.stderr].concat();
    Err(difference(files, &String::from_utf8_lossy(&printed)))
}

/// Its folder, outside of this repository: `rt ci` refuses crates and files of antt that crates.txt doesn't name, below target/ too.
struct Scratch(PathBuf);

impl Scratch {
    fn new(name: &str) -> Self {
        let folder = env::temp_dir().join(format!("mcx11-{name}-{}", process::id()));
        let _ = fs::remove_dir_all(&folder);
        Scratch(folder)
    }
}

impl Drop for Scratch {
    fn drop(&mut self) {
        let _ = fs::remove_dir_all(&self.0);
    }
}

/// The ledger's definitions without its examples, and without its proofs/, which has its theorems.
fn write_ledger(from: &Path, to: &Path) {
    let _ = fs::remove_dir_all(to);
    copy(&from.join("src"), &to.join("src"));
    copy(&from.join("specs"), &to.join("specs"));
    let root = to.join("specs/Lib.antt");
    let modules = fs::read_to_string(&root).expect("the ledger's list of modules");
    let kept = modules.lines().filter(|line| !is_left_out(line));
    write(&root, &(kept.collect::<Vec<&str>>().join("\n") + "\n"));
}

fn copy(from: &Path, to: &Path) {
    fs::create_dir_all(to).expect("a folder of the scratch repository");
    let entries = fs::read_dir(from).unwrap_or_else(|error| panic!("{}: {error}", from.display()));
    for entry in entries.flatten().filter(|entry| !is_left_out(&entry.file_name().to_string_lossy())) {
        let (path, copied) = (entry.path(), to.join(entry.file_name()));
        if path.is_dir() {
            copy(&path, &copied);
        } else {
            fs::copy(&path, &copied).expect("a copy");
        }
    }
}

/// A module, by its file's name or the line that names it.
fn is_left_out(module: &str) -> bool {
    module.contains("Examples")
}

fn write_sessions(scratch: &Path, files: &[File]) {
    let sessions = scratch.join("crates/sessions");
    let _ = fs::remove_dir_all(&sessions);
    write(&scratch.join("crates.txt"), CRATES);
    write(&sessions.join("src/lib.rt"), LIBRARY);
    write(&sessions.join("specs/Compared.antt"), COMPARED);
    write(&sessions.join("specs/Followed.antt"), FOLLOWED);
    let mut root = String::from("pub mod Compared\npub mod Followed\n");
    for (number, (head, facts)) in files.iter().enumerate() {
        let texts: String = facts.iter().map(text).collect();
        write(&sessions.join(format!("specs/Facts{number}.antt")), &format!("{head}\n{texts}"));
        root += &format!("pub mod Facts{number}\n");
    }
    write(&sessions.join("specs/Lib.antt"), &root);
}

fn text(fact: &Fact) -> String {
    let Fact { name, equation, unfolding, .. } = fact;
    format!("{name} : {equation}\nunfolding {unfolding}\n{name} = refl\n\n")
}

fn write(path: &Path, text: &str) {
    fs::create_dir_all(path.parent().expect("a folder")).expect("a folder of the scratch repository");
    fs::write(path, text).expect("a file of the scratch repository");
}

fn difference(files: &[File], printed: &str) -> String {
    let found = |fact: &&Fact| printed.contains(&error_at(fact));
    match files.iter().flat_map(|(_, facts)| facts).find(found) {
        Some(fact) => format!("{} differs.\n{}\n{}", fact.name, fact.replay, report_of(fact, printed)),
        None => format!("the checker failed for another reason:\n{printed}"),
    }
}

/// What the checker prints at a fact that doesn't hold.
fn error_at(fact: &Fact) -> String {
    format!("error: `{}`", fact.name)
}

/// The checker's report on one fact: from its error to the next.
fn report_of(fact: &Fact, printed: &str) -> String {
    let report = printed.split_once(&error_at(fact)).map_or("", |(_, report)| report);
    let report = report.split("error: `").next().unwrap_or(report);
    format!("the checker on {}{report}", fact.name)
}
