//! Debian's chromium without a window, told what to do through a pipe (the Chrome DevTools Protocol).

use std::io::{BufRead, BufReader, Write};
use std::path::{Path, PathBuf};
use std::process::{Child, ChildStdin, ChildStdout, Command, Stdio};
use std::thread;
use std::time::{Duration, Instant};

use view::json::Json;

use crate::value::Value;

pub struct Browser {
    child: Child,
    to: ChildStdin,
    from: BufReader<ChildStdout>,
    profile: PathBuf,
    page: String,
    calls: u64,
    /// What the page wrote to its console as errors or warnings, and what it did not catch.
    pub complaints: Vec<String>,
}

const READY: &str = "location.protocol === 'file:' && document.documentElement.dataset.ready === 'yes'";
const PATIENCE: Duration = Duration::from_secs(60);
/// Keys that do nothing without their code.
const CODES: [(&str, u64); 2] = [("Tab", 9), ("Enter", 13)];

/// Where the browser is, if it is there.
pub fn program() -> Option<PathBuf> {
    let folders = std::env::var_os("PATH")?;
    std::env::split_paths(&folders).map(|folder| folder.join("chromium")).find(|path| path.exists())
}

/// The browser reads from its file 3 and writes to its file 4; a shell hands our pipes on as those.
const START: &str = r#"exec "$0" --headless --no-sandbox --disable-gpu --disable-dev-shm-usage --no-first-run \
--disable-background-networking --disable-component-update --mute-audio --user-data-dir="$1" --remote-debugging-pipe \
--window-size=1280,800 about:blank 3<&0 4>&1 </dev/null >/dev/null 2>/dev/null"#;

impl Browser {
    pub fn start(program: &Path, name: &str) -> Self {
        let profile = std::env::temp_dir().join(format!("view-{name}-{}", std::process::id()));
        let mut child = Command::new("sh")
            .args(["-c", START])
            .arg(program)
            .arg(&profile)
            .stdin(Stdio::piped())
            .stdout(Stdio::piped())
            .spawn()
            .expect("a shell");
        let (to, from) = (child.stdin.take().expect("piped"), BufReader::new(child.stdout.take().expect("piped")));
        let mut browser = Browser { child, to, from, profile, page: String::new(), calls: 0, complaints: Vec::new() };
        let target = browser.call("Target.createTarget", vec![("url", "about:blank".into())]);
        let target = target.at("targetId").text().to_string();
        let attach = vec![("targetId", target.into()), ("flatten", truth())];
        browser.page = browser.call("Target.attachToTarget", attach).at("sessionId").text().to_string();
        for domain in ["Page.enable", "Runtime.enable", "Log.enable"] {
            browser.call(domain, vec![]);
        }
        browser
    }

    /// Calls a method and waits for what it gives; events on the way are looked at.
    pub fn call(&mut self, method: &str, parameters: Vec<(&'static str, Json)>) -> Value {
        self.calls += 1;
        let mut message =
            vec![("id", Json::Number(self.calls)), ("method", method.into()), ("params", Json::Object(parameters))];
        if !self.page.is_empty() {
            message.push(("sessionId", self.page.as_str().into()));
        }
        let message = Json::Object(message).to_string();
        self.to.write_all(message.as_bytes()).and_then(|()| self.to.write_all(b"\0")).expect("the browser reads");
        loop {
            let value = self.receive();
            if value.at("id").number() == self.calls as f64 {
                assert_eq!(*value.at("error"), Value::Null, "{method}");
                return value.at("result").clone();
            }
            self.event(&value);
        }
    }

    fn receive(&mut self) -> Value {
        let mut bytes = Vec::new();
        self.from.read_until(0, &mut bytes).expect("the browser writes");
        assert_eq!(bytes.pop(), Some(0), "the browser ended");
        Value::read(&String::from_utf8(bytes).expect("UTF-8"))
    }

    fn event(&mut self, value: &Value) {
        let told = match value.at("method").text() {
            "Runtime.exceptionThrown" => format!("{:?}", value.at("params.exceptionDetails")),
            "Runtime.consoleAPICalled" if value.at("params.type").text() != "log" => {
                format!("{:?}", value.at("params.args"))
            }
            "Log.entryAdded" => format!("{:?}", value.at("params.entry")),
            _ => return,
        };
        self.complaints.push(told);
    }

    /// Opens a page and waits until it is ready.
    pub fn open(&mut self, file: &Path, hash: &str) {
        let address = format!("file://{}{hash}", file.display());
        self.call("Page.navigate", vec![("url", "about:blank".into())]);
        self.call("Page.navigate", vec![("url", address.as_str().into())]);
        let began = Instant::now();
        while self.try_eval(READY) != Ok(Value::Bool(true)) {
            assert!(began.elapsed() < PATIENCE, "{address} is not ready: {:?}", self.complaints);
            thread::sleep(Duration::from_millis(20));
        }
        self.settle();
    }

    /// What an expression gives. A promise is waited for.
    pub fn eval(&mut self, expression: &str) -> Value {
        self.try_eval(expression).unwrap_or_else(|why| panic!("{expression}: {why:?}"))
    }

    fn try_eval(&mut self, expression: &str) -> Result<Value, Value> {
        let parameters = vec![("expression", expression.into()), ("returnByValue", truth()), ("awaitPromise", truth())];
        let result = self.call("Runtime.evaluate", parameters);
        match result.at("exceptionDetails") {
            Value::Null => Ok(result.at("result.value").clone()),
            why => Err(why.clone()),
        }
    }

    pub fn text(&mut self, expression: &str) -> String {
        self.eval(expression).text().to_string()
    }

    pub fn number(&mut self, expression: &str) -> f64 {
        self.eval(expression).number()
    }

    /// Until what was asked for is drawn.
    pub fn settle(&mut self) {
        self.eval("new Promise(done => requestAnimationFrame(() => requestAnimationFrame(() => done(0))))");
    }

    /// A key, pressed and let go. `code` is its name, `text` what it types.
    pub fn key(&mut self, key: &str) {
        let text = match key {
            "Enter" => "\r",
            _ if key.chars().count() == 1 => key,
            _ => "",
        };
        for kind in ["keyDown", "keyUp"] {
            let mut parameters = vec![("type", kind.into()), ("key", key.into())];
            if kind == "keyDown" && !text.is_empty() {
                parameters.push(("text", text.into()));
            }
            if let Some((_, code)) = CODES.iter().find(|(name, _)| *name == key) {
                parameters.push(("windowsVirtualKeyCode", Json::Number(*code)));
            }
            self.call("Input.dispatchKeyEvent", parameters);
        }
        self.settle();
    }

    pub fn mouse(&mut self, kind: &str, x: f64, y: f64, more: Vec<(&'static str, Json)>) {
        let mut parameters = vec![("type", kind.into()), ("x", Json::Number(x as u64)), ("y", Json::Number(y as u64))];
        parameters.extend(more);
        self.call("Input.dispatchMouseEvent", parameters);
    }

    pub fn click(&mut self, x: f64, y: f64) {
        for kind in ["mousePressed", "mouseReleased"] {
            self.mouse(kind, x, y, vec![("button", "left".into()), ("clickCount", Json::Number(1))]);
        }
        self.settle();
    }

    pub fn size(&mut self, width: u64, height: u64) {
        let parameters = vec![
            ("width", Json::Number(width)),
            ("height", Json::Number(height)),
            ("deviceScaleFactor", Json::Number(1)),
            ("mobile", Json::Word("false")),
        ];
        self.call("Emulation.setDeviceMetricsOverride", parameters);
        self.settle();
    }

    /// A picture of what is seen, as PNG.
    pub fn picture(&mut self) -> Vec<u8> {
        self.settle();
        bytes(self.call("Page.captureScreenshot", vec![("format", "png".into())]).at("data").text())
    }

    /// The page as it is printed, as PDF.
    pub fn printed(&mut self) -> Vec<u8> {
        let parameters = vec![("printBackground", truth()), ("preferCSSPageSize", truth())];
        bytes(self.call("Page.printToPDF", parameters).at("data").text())
    }
}

/// Base64 read.
fn bytes(text: &str) -> Vec<u8> {
    let six = |letter: u8| match letter {
        b'A'..=b'Z' => letter - b'A',
        b'a'..=b'z' => letter - b'a' + 26,
        b'0'..=b'9' => letter - b'0' + 52,
        b'+' => 62,
        _ => 63,
    };
    let letters: Vec<u8> = text.bytes().filter(|letter| *letter != b'=').collect();
    let four = |part: &[u8]| {
        let number = part.iter().fold(0, |sum, letter| sum << 6 | u32::from(six(*letter))) << (6 * (4 - part.len()));
        number.to_be_bytes()[1..part.len()].to_vec()
    };
    letters.chunks(4).flat_map(four).collect()
}

fn truth() -> Json {
    Json::Word("true")
}

impl Drop for Browser {
    fn drop(&mut self) {
        let _ = self.child.kill();
        let _ = self.child.wait();
        let _ = std::fs::remove_dir_all(&self.profile);
    }
}
