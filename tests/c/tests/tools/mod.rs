//! What the tests of host/ and of the papers share: files of the repository, commands, compilers. Each test uses some of it.
#![allow(dead_code)]

use c::caller::Caller;
use plain_executive::executive::Executive;
use plain_executive::{line, session};
use std::fs;
use std::io::Write;
use std::os::unix::fs::symlink;
use std::path::{Path, PathBuf};
use std::process::{Command, Output, Stdio};

pub const STRICT: [&str; 5] = ["-Wall", "-Wextra", "-Wconversion", "-Werror", "-pedantic"];

/// A compiler and what it is told of the language.
pub type Language = (&'static str, [&'static str; 3]);

/// The languages of the header. Those of clang count where it is installed.
const LANGUAGES: [Language; 14] = [
    ("gcc", ["-x", "c", "-std=c99"]),
    ("gcc", ["-x", "c", "-std=c11"]),
    ("gcc", ["-x", "c", "-std=c17"]),
    ("g++", ["-x", "c++", "-std=c++98"]),
    ("g++", ["-x", "c++", "-std=c++11"]),
    ("g++", ["-x", "c++", "-std=c++17"]),
    ("g++", ["-x", "c++", "-std=c++20"]),
    ("clang", ["-x", "c", "-std=c99"]),
    ("clang", ["-x", "c", "-std=c11"]),
    ("clang", ["-x", "c", "-std=c17"]),
    ("clang++", ["-x", "c++", "-std=c++98"]),
    ("clang++", ["-x", "c++", "-std=c++11"]),
    ("clang++", ["-x", "c++", "-std=c++17"]),
    ("clang++", ["-x", "c++", "-std=c++20"]),
];

pub fn languages() -> impl Iterator<Item = Language> {
    LANGUAGES.into_iter().filter(|(compiler, _)| !compiler.starts_with("clang") || installed(compiler))
}

/// One of C and one of C++, for what takes long.
pub fn two_languages() -> [Language; 2] {
    [LANGUAGES[0], LANGUAGES[4]]
}

pub fn installed(program: &str) -> bool {
    Command::new(program).arg("--version").output().is_ok_and(|output| output.status.success())
}

pub fn repository() -> PathBuf {
    fs::canonicalize(Path::new(env!("CARGO_MANIFEST_DIR")).join("../..")).expect("the repository")
}

pub fn text(file: &str) -> String {
    let path = repository().join(file);
    fs::read_to_string(&path).unwrap_or_else(|error| panic!("{}: {error}", path.display()))
}

/// An empty folder of one's own.
pub fn scratch(name: &str) -> PathBuf {
    let folder = Path::new(env!("CARGO_TARGET_TMPDIR")).join(name);
    fs::remove_dir_all(&folder).ok();
    fs::create_dir_all(&folder).expect("a folder for the test");
    folder
}

/// Copies files of the repository's host/ into a folder, by a process of its own: a script that this process itself had written could be
/// held open by the child of another thread, and could not be run then.
pub fn copied(files: &[&str], folder: &Path) {
    let sources = files.iter().map(|file| repository().join("host").join(file));
    printed(Command::new("cp").args(sources).arg(folder), b"");
}

/// A folder of one's own that looks like the repository: a link to each of its files and folders. It lies outside of the repository, where
/// `rt ci` refuses links, below target/ too, and is there as long as this value.
pub struct Checkout(PathBuf);

impl Checkout {
    pub fn new(name: &str) -> Self {
        let folder = std::env::temp_dir().join(format!("mcx11 {} {name}", std::process::id()));
        fs::remove_dir_all(&folder).ok();
        fs::create_dir_all(&folder).expect("a folder for the test");
        let checkout = Checkout(folder);
        for entry in fs::read_dir(repository()).expect("the repository") {
            let path = entry.expect("an entry").path();
            let name = path.file_name().expect("a name").to_owned();
            if !name.to_string_lossy().starts_with(".git") {
                symlink(&path, checkout.0.join(&name)).expect("a link");
            }
        }
        checkout
    }

    pub fn folder(&self) -> &Path {
        &self.0
    }
}

impl Drop for Checkout {
    fn drop(&mut self) {
        fs::remove_dir_all(&self.0).ok();
    }
}

pub fn run(command: &mut Command, input: &[u8]) -> Output {
    let told = format!("{command:?}");
    let piped = command.stdin(Stdio::piped()).stdout(Stdio::piped()).stderr(Stdio::piped());
    let mut child = piped.spawn().unwrap_or_else(|error| panic!("{told}: {error}"));
    let mut standard_input = child.stdin.take().expect("piped");
    std::thread::scope(|scope| {
        scope.spawn(move || standard_input.write_all(input).ok());
        child.wait_with_output().expect("its output")
    })
}

/// What a command prints that must end well.
pub fn printed(command: &mut Command, input: &[u8]) -> String {
    let output = run(command, input);
    let errors = String::from_utf8_lossy(&output.stderr);
    assert!(output.status.success(), "{command:?}:\n{errors}{}", String::from_utf8_lossy(&output.stdout));
    String::from_utf8(output.stdout).expect("text")
}

/// Builds a program of tests/c with the header and the archive, as strictly as can be.
pub fn built(folder: &Path, source: &str, (compiler, language): Language, more: &[&str]) -> PathBuf {
    let program = folder.join(format!("{source}{}{compiler}", language[2]));
    let mut compile = Command::new(compiler);
    compile.args(language).args(STRICT).args(more).arg("-I").arg(repository().join("host"));
    compile.arg(repository().join("tests/c").join(source)).args(["-x", "none"]);
    compile.arg(repository().join("target/staticlib/libmcx11.a")).arg("-o").arg(&program);
    printed(&mut compile, b"");
    program
}

/// What makes a program of tests/c, which is written for the controller, one of this caller.
pub fn of_caller(caller: Caller) -> &'static [&'static str] {
    match caller {
        Caller::Controller => &[],
        Caller::Module => &["-include", "mcx11_state.h", "-include", "mcx11_as_module.h"],
    }
}

/// What the other implementation answers to this caller's session. The first line is a frame.
pub fn answers(caller: Caller, input: &[u8]) -> Vec<u8> {
    let first = line::read(session::lines(input).next().expect("a line")).expect("a frame");
    match Executive::configure_within(caller.limits(), &first) {
        Ok(_) => session::run(input),
        Err(number) => format!("{number:02X}000000\n").into_bytes(),
    }
}

/// The names of the stories of examples/, in order.
pub fn stories() -> Vec<String> {
    let files = fs::read_dir(repository().join("examples")).expect("examples/");
    let names = files.map(|file| file.expect("a file").file_name().into_string().expect("a name"));
    let mut stories: Vec<String> = names.filter_map(|name| Some(name.strip_suffix(".session")?.to_string())).collect();
    stories.sort();
    assert!(!stories.is_empty(), "no stories in examples/");
    stories
}

/// A story's session, without the lines that are no frames: what a host in C can be fed.
pub fn frames_of(story: &str) -> Vec<u8> {
    let session = text(&format!("examples/{story}.session"));
    let frames = session.lines().filter(|line| line::read(line.as_bytes()).is_ok());
    frames.flat_map(|frame| [frame.as_bytes(), b"\n"].concat()).collect()
}
