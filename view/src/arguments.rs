//! What the command line asks for.

use c::caller::Caller;

pub const USAGE: &str = "\
view words [FILE] [--names NAMES] [--module]              each frame and its answer in words, then the turns of timers
view page FILE [-o PAGE] [--names NAMES] [--module]       one page for a browser
view page FILE FILE [-o PAGE] [--names NAMES] [--module]  two sessions side by side
FILE is a session: lines of upper-case digits, first the configuration; '-' is standard input.
NAMES has lines such as 't1 gate', 's2 train-in', 'q1 orders', 'm1 go'. PAGE is page.html if it is not told.
With --module it is a session of the brake module, with its limits and its memory, not of the controller.
With --busiest W they also show which W frames in a row have the most reissues; W is 1 up to the number of frames,
which are at most 4,096.
Ends with 0; with 1 if a configuration is refused; with 2 if the command, a file or W is wrong; with 3 if the two
implementations differ, and then no page is written.
";

#[derive(Debug, PartialEq, Eq)]
pub enum Task {
    Help,
    Words { file: String },
    Page { files: Vec<String>, page: String },
}

#[derive(Debug, PartialEq, Eq)]
pub struct Arguments {
    pub task: Task,
    pub names: Option<String>,
    /// Whose session it is.
    pub caller: Caller,
    /// The frames of a stretch.
    pub busiest: Option<usize>,
}

pub fn read(words: impl IntoIterator<Item = String>) -> Result<Arguments, String> {
    let (mut names, mut page, mut plain, mut caller) = (None, None, Vec::new(), Caller::Controller);
    let mut busiest = None;
    let mut words = words.into_iter();
    while let Some(word) = words.next() {
        let mut value = |what| words.next().ok_or_else(|| format!("'{word}' needs a {what} behind it"));
        match word.as_str() {
            "-h" | "--help" => return Ok(Arguments { task: Task::Help, names: None, caller, busiest }),
            "--module" => caller = Caller::Module,
            "--busiest" => busiest = Some(number_of_frames(&value("number of frames")?)?),
            "--names" => names = Some(value("file")?),
            "-o" => page = Some(value("file")?),
            option if option.starts_with('-') && option != "-" => return Err(format!("there is no option '{option}'")),
            _ => plain.push(word),
        }
    }
    let mut plain = plain.into_iter();
    let command = plain.next().ok_or("say what to show: 'words' or 'page'")?;
    let files: Vec<String> = plain.collect();
    let task = match (command.as_str(), files.len()) {
        ("words", _) if page.is_some() => return Err("'-o' is for 'page'; words go to standard output".to_string()),
        ("words", 0) => Task::Words { file: "-".to_string() },
        ("words", 1) => Task::Words { file: files[0].clone() },
        ("words", _) => return Err("'words' takes one file".to_string()),
        ("page", 1 | 2) => Task::Page { files, page: page.unwrap_or_else(|| "page.html".to_string()) },
        ("page", _) => return Err("'page' takes one file, or two to compare them".to_string()),
        _ => return Err(format!("there is no command '{command}': say 'words' or 'page'")),
    };
    Ok(Arguments { task, names, caller, busiest })
}

fn number_of_frames(word: &str) -> Result<usize, String> {
    word.parse().map_err(|_| format!("'{word}' is no number of frames: write '--busiest 10'"))
}
