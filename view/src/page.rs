//! The page: one file with its styles, its program and the sessions, packed.

use c::caller::Caller;
use c::lent::Lent;

use crate::base64;
use crate::busiest::Stretch;
use crate::deflate;
use crate::differences;
use crate::json::Json;
use crate::names::Names;
use crate::recording::Recording;
use crate::replay::{Call, Stop};

const FRAME: &str = include_str!("../page/page.html");
const STYLE: &str = include_str!("../page/style.css");
const SCRIPTS: [&str; 12] = [
    include_str!("../page/data.js"),
    include_str!("../page/state.js"),
    include_str!("../page/axis.js"),
    include_str!("../page/lanes.js"),
    include_str!("../page/marks.js"),
    include_str!("../page/plots.js"),
    include_str!("../page/list.js"),
    include_str!("../page/tables.js"),
    include_str!("../page/summary.js"),
    include_str!("../page/search.js"),
    include_str!("../page/stretch.js"),
    include_str!("../page/main.js"),
];

pub struct Made {
    pub frames: usize,
    pub html: String,
}

/// A file, the line in it, and why it does not go on.
pub type Failure = (String, usize, Stop);

/// A page of one session of a caller or of two, each with its file's name and its lines. It shows a stretch of each, or none.
pub fn make(caller: Caller, sessions: &[(&str, &[u8])], names: &Names, stretches: &[Stretch]) -> Result<Made, Failure> {
    make_with(caller, sessions, names, stretches, Lent::frame)
}

pub fn make_with(
    caller: Caller,
    sessions: &[(&str, &[u8])],
    names: &Names,
    stretches: &[Stretch],
    call: Call,
) -> Result<Made, Failure> {
    let mut packed = String::new();
    let mut frames = 0;
    for (place, (file, input)) in sessions.iter().enumerate() {
        let recording = Recording::of(caller, file, input, names, stretches.get(place), call)
            .map_err(|(line, why)| (file.to_string(), line, why))?;
        frames += recording.frames;
        let data = base64::write(&deflate::write(&recording.bytes()));
        packed += &format!("<script type=\"application/octet-stream\" class=\"packed\">{data}</script>\n");
    }
    let differences = match sessions {
        [(_, first), (_, second)] => differences::between(caller, first, second, names).json(),
        _ => Json::List(Vec::new()),
    };
    let title = sessions.iter().map(|(file, _)| file_name(file)).collect::<Vec<_>>().join(" and ");
    let about = Json::Object(vec![("differences", differences)]);
    let html = FRAME
        .replace("{{title}}", &escaped(&title))
        .replace("{{style}}", STYLE)
        .replace("{{about}}", &about.to_string())
        .replace("{{script}}", &SCRIPTS.join("\n"))
        .replace("{{sessions}}", &packed);
    Ok(Made { frames, html })
}

fn file_name(file: &str) -> &str {
    file.rsplit('/').next().unwrap_or(file)
}

fn escaped(text: &str) -> String {
    text.replace('&', "&amp;").replace('<', "&lt;").replace('>', "&gt;")
}
