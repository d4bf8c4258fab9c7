//! The busiest stretch on the page: its border, its label, its rows and its sentence.

use crate::chromium::Browser;
use crate::{browser, lively, page_with_stretches, story};

/// By the answers alone: the first and the last frame, and the reissues.
pub fn busiest(input: &[u8], w: usize) -> (usize, usize, u32) {
    let answers = String::from_utf8(plain_executive::session::run(input)).unwrap();
    let reissues: Vec<u32> =
        answers.lines().skip(1).map(|answer| u32::from_str_radix(&answer[4..6], 16).unwrap()).collect();
    let sums: Vec<u32> = reissues.windows(w).map(|stretch| stretch.iter().sum()).collect();
    let most = *sums.iter().max().unwrap();
    let place = sums.iter().position(|sum| *sum == most).unwrap();
    (place + 1, place + w, most)
}

/// Where the border begins and ends in a canvas, by its uppermost pixels. Both sides go down.
fn border(browser: &mut Browser, canvas: &str) -> Option<(f64, f64)> {
    let script = format!(
        r#"(() => {{
  const shown = document.querySelector("{canvas}"), copy = document.createElement("canvas");
  [copy.width, copy.height] = [shown.width, shown.height];
  const pen = copy.getContext("2d", {{ willReadFrequently: true }});
  pen.fillStyle = getComputedStyle(document.documentElement).getPropertyValue("--reissued").trim();
  pen.fillRect(0, 0, 1, 1);
  const colour = [...pen.getImageData(0, 0, 1, 1).data].join();
  pen.clearRect(0, 0, 1, 1);
  pen.drawImage(shown, 0, 0);
  const has = (x, y) => [...pen.getImageData(x, y, 1, 1).data].join() === colour;
  const columns = Array.from({{ length: copy.width }}, (_, x) => x).filter(x => has(x, 0));
  if (!columns.length) return "";
  const [from, to] = [columns[0], columns[columns.length - 1]];
  const whole = columns.length === to - from + 1 && [from, to].every(x => has(x, copy.height >> 1) && has(x, copy.height - 2));
  return whole ? [from, to + 1].join() : "broken";
}})()"#
    );
    let told = browser.text(&script);
    if told.is_empty() {
        return None;
    }
    let (from, to) = told.split_once(',').expect("a whole border");
    Some((from.parse().unwrap(), to.parse().unwrap()))
}

fn number_at(browser: &mut Browser, of: &str, frame: usize) -> f64 {
    browser.number(&format!("page.main.axis.{of}({frame})"))
}

/// In both themes, by frames and by tocks, in the lanes and in the overview.
#[test]
fn the_border_lies_about_the_frames_of_the_stretch() {
    let input = lively::session(11, 1_500);
    let (from, to, _) = busiest(&input, 40);
    let page = page_with_stretches("stretch-border", &[("border.session", &input)], 40);
    let mut opened = browser("stretch-border");
    let browser = &mut opened.browser;
    browser.open(&page, "");
    for (key, seen) in [("0", 1_501), ("a", 1_501), ("d", 1_501), ("a", 300), ("d", 300), ("a", 300)] {
        browser.key(key);
        let [left, right] = [from.saturating_sub(100), from + 200].map(|frame| number_at(browser, "position", frame));
        if seen == 300 {
            browser.eval(&format!("page.main.axis.show({left}, {right}); page.draw()"));
            browser.settle();
        }
        let shown = border(browser, ".lanes").expect("a border");
        let due = (number_at(browser, "x", from).round(), number_at(browser, "x", to + 1).round());
        assert_eq!(shown, (due.0, due.1.max(due.0 + 3.0)), "lanes, {key}, {seen} frames");
        let scale = browser.number("page.views[0].overview.scale");
        let due = [from, to + 1].map(|frame| (number_at(browser, "position", frame) * scale).round());
        let shown = border(browser, ".overview").expect("a border");
        assert_eq!(shown, (due[0], due[1].max(due[0] + 3.0)), "overview, {key}, {seen} frames");
    }
    assert_eq!(browser.complaints, Vec::<String>::new());
}

#[test]
fn the_stretch_is_told_and_its_rows_are_marked() {
    let race = story("race");
    let (from, to, reissues) = busiest(&race, 5);
    assert_eq!((from, to, reissues), (10, 14, 4));
    let page = page_with_stretches("stretch-told", &[("race.session", &race)], 5);
    let mut opened = browser("stretch-told");
    let browser = &mut opened.browser;
    browser.open(&page, "#f=12");
    assert_eq!(
        browser.text("document.querySelector('.stretch-label').textContent"),
        "busiest stretch of 5: 4 reissues"
    );
    let rows = "[...document.querySelectorAll('.row.in-stretch')].map(row => row.dataset.frame).join()";
    assert_eq!(browser.text(rows), "10,11,12,13,14");
    let told = "document.querySelector('.summary .busiest').textContent";
    assert_eq!(browser.text(told), "Busiest stretch of 5 frames, #10 to #14: 4 reissues, tock 0.");
    let links = "[...document.querySelectorAll('.summary .busiest a')].map(link => link.hash).join()";
    assert_eq!(browser.text(links), "#f=10,#f=14");
    let heads =
        "[...document.querySelectorAll('.summary h2')].filter(head => head.textContent.includes('usiest')).length";
    assert_eq!(browser.number(heads), 1.0, "one of them");
    assert_eq!(browser.complaints, Vec::<String>::new());
}

/// Where its frames are not seen, the label says on which side they are.
#[test]
fn the_label_leads_to_the_stretch_by_key_and_by_mouse() {
    let input = lively::session(12, 1_500);
    let (from, _, reissues) = busiest(&input, 10);
    let page = page_with_stretches("stretch-label", &[("label.session", &input)], 10);
    let mut opened = browser("stretch-label");
    let browser = &mut opened.browser;
    browser.open(&page, "");
    let label = "document.querySelector('.stretch-label')";
    let due = format!("busiest stretch of 10: {reissues} reissues");
    let shown = |browser: &mut Browser| browser.text(&format!("{label}.textContent"));
    let away = |browser: &mut Browser, key: &str, frames: (usize, usize)| {
        browser.key(key);
        browser.eval(&format!("page.main.axis.show({}, {}); page.draw()", frames.0, frames.1));
        browser.settle();
        assert_eq!(border(browser, ".lanes"), None);
    };
    let x = |browser: &mut Browser, part: &str| browser.number(&format!("{part}.getBoundingClientRect().left"));
    let begins = number_at(browser, "x", from) + x(browser, "document.querySelector('.lanes')");
    assert!((x(browser, label) - begins).abs() < 1.0, "above its frames");
    assert!((40..1_400).contains(&from), "{from}");
    away(browser, "Home", (0, from - 20));
    assert_eq!(shown(browser), format!("{due} \u{25B6}"));
    for _ in 0..30 {
        browser.key("Tab");
        if browser.text("document.activeElement.className") == "stretch-label" {
            break;
        }
    }
    browser.key("Enter");
    assert_eq!(browser.number("page.frame") as usize, from, "by key");
    assert_eq!(shown(browser), due);
    away(browser, "End", (from + 50, 1_500));
    assert_eq!(shown(browser), format!("\u{25C0} {due}"));
    let place = |side: &str| format!("{label}.getBoundingClientRect().{side}");
    let (x, y) = (browser.number(&place("left")), browser.number(&place("top")));
    browser.click(x + 5.0, y + 5.0);
    assert_eq!(browser.number("page.frame") as usize, from, "by mouse");
    assert_eq!(browser.complaints, Vec::<String>::new());
}

#[test]
fn two_sessions_have_a_stretch_each() {
    let (race, queue) = (story("race"), story("queue"));
    let page = page_with_stretches("stretch-two", &[("race.session", &race), ("queue.session", &queue)], 3);
    let mut opened = browser("stretch-two");
    let browser = &mut opened.browser;
    browser.size(1280, 1600);
    browser.open(&page, "");
    let labels = "[...document.querySelectorAll('.stretch-label')].map(label => label.textContent).join('; ')";
    assert_eq!(browser.text(labels), "busiest stretch of 3: 3 reissues; busiest stretch of 3: 1 reissue");
    browser.eval("page.choose(6)");
    let rows = "[...document.querySelectorAll('.session')].map(part => [...part.querySelectorAll('.row.in-stretch')].map(row => row.dataset.frame).join()).join('; ')";
    assert_eq!(browser.text(rows), "8,9,10; 2,3,4");
    assert_eq!(browser.complaints, Vec::<String>::new());
}
