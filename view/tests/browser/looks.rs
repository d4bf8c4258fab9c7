//! What the page shows: no complaints, the lanes' colours, the tables, sizes of text.

use plain_executive::executive::Executive;
use plain_executive::generator::Generator;

use c::caller::Caller;

use crate::chromium::Browser;
use crate::{browser, expected, lively, page_of, page_of_caller, story};

/// The stories that begin.
fn stories() -> Vec<String> {
    let files = std::fs::read_dir(crate::repository().join("examples")).expect("examples/");
    let names = files.map(|file| file.expect("a file").file_name().into_string().expect("a name"));
    let sessions = names.filter_map(|name| name.strip_suffix(".session").map(str::to_string));
    sessions.filter(|name| plain_executive::session::run(&story(name)).starts_with(b"00")).collect()
}

/// The rows of all tables after each of these frames, as `expected::tables` has them.
fn tables_at(browser: &mut Browser, frames: &[usize]) -> Vec<Vec<String>> {
    let script = format!(
        r#"{frames:?}.map(frame => {{
  page.choose(frame);
  return [...document.querySelectorAll(".tables tr[data-key]:not(.gone)")].map(row => {{
    const table = row.closest("table").className;
    const cells = [...row.cells].slice(1).filter(cell => !cell.classList.contains("since") && !cell.querySelector(".bar"));
    return `${{table}} ${{row.dataset.key}}|` + cells.map(cell => cell.textContent).join("|");
  }}).join("\n");
}}).join("\f")"#
    );
    let rows = |part: &str| part.lines().map(str::to_string).collect();
    browser.text(&script).split('\u{C}').map(rows).collect()
}

fn compare_tables(browser: &mut Browser, states: &[Executive], frames: &[usize], name: &str) {
    let shown = tables_at(browser, frames);
    assert_eq!(shown.len(), frames.len());
    for (rows, frame) in shown.into_iter().zip(frames) {
        assert_eq!(rows, expected::tables(&states[*frame]), "{name}, frame {frame}");
    }
}

/// A session of the module has the same tables, and the page says whose it is.
#[test]
fn a_page_of_the_module_says_so() {
    let station = story("station");
    let page = page_of_caller(Caller::Module, "module", &[("station.session", &station)], "");
    let mut opened = browser("module");
    let browser = &mut opened.browser;
    browser.open(&page, "");
    let about = browser.text("document.getElementById('about').textContent");
    assert!(about.ends_with("; on the brake module"), "{about}");
    let states = expected::states(&station);
    compare_tables(browser, &states, &(0..states.len()).collect::<Vec<_>>(), "station on the module");
    assert_eq!(browser.complaints, Vec::<String>::new());
}

/// The names of the colours that most of each lane's cell has after a frame; a cell is six pixels wide at least.
fn lanes_at(browser: &mut Browser, frame: usize) -> Vec<String> {
    let script = format!(
        r#"(() => {{
  const view = page.views[0], ratio = devicePixelRatio, shown = view.lanes.canvas, copy = document.createElement("canvas");
  [copy.width, copy.height] = [shown.width, shown.height];
  const pen = copy.getContext("2d", {{ willReadFrequently: true }});
  pen.drawImage(shown, 0, 0);
  const from = view.axis.x({frame}), width = view.axis.x({frame} + 1) - from;
  const names = ["running", "ready", "event", "message", "suspended", "idle", "none"];
  const colours = new Map(names.map(name => {{
    const probe = document.createElement("canvas").getContext("2d");
    probe.fillStyle = getComputedStyle(document.documentElement).getPropertyValue("--" + name).trim();
    probe.fillRect(0, 0, 1, 1);
    return [[...probe.getImageData(0, 0, 1, 1).data].join(), name];
  }}));
  colours.set("0,0,0,0", "none");
  return view.lanes.order.map(task => {{
    const data = pen.getImageData((from + 3) * ratio, (view.lanes.topOf(task) + 1) * ratio, (width - 6) * ratio, 18 * ratio).data;
    const counts = new Map();
    for (let at = 0; at < data.length; at += 4) {{
      const colour = [...data.subarray(at, at + 4)].join();
      counts.set(colour, (counts.get(colour) || 0) + 1);
    }}
    const most = [...counts].sort((a, b) => b[1] - a[1])[0][0];
    return colours.get(most) || most;
  }}).join();
}})()"#
    );
    browser.text(&script).split(',').map(str::to_string).collect()
}

#[test]
fn every_story_is_shown_without_a_complaint() {
    let mut opened = browser("stories");
    let stories = stories();
    assert!(stories.len() >= 5, "{stories:?}");
    for name in &stories {
        let input = story(name);
        let page = page_of(name, &[(name, &input)], "");
        opened.browser.open(&page, "");
        let states = expected::states(&input);
        let frames: Vec<usize> = (0..states.len()).collect();
        compare_tables(&mut opened.browser, &states, &frames, name);
        let words =
            opened.browser.text("page.views[0].session.askedWords(1) + ': ' + page.views[0].session.answerWords(1)");
        let stored =
            std::fs::read_to_string(crate::repository().join("view/tests/words").join(name).with_extension("words"));
        assert!(stored.unwrap().contains(&format!("\n1  {words}\n")), "{words}");
    }
    assert_eq!(opened.browser.complaints, Vec::<String>::new());
}

#[test]
fn the_lanes_have_the_colours_of_the_states() {
    let mut opened = browser("lanes");
    for name in ["station", "display"] {
        let input = story(name);
        let page = page_of(&format!("lanes-{name}"), &[(name, &input)], "");
        opened.browser.open(&page, "");
        for theme in ["light", "dark"] {
            for (frame, state) in expected::states(&input).iter().enumerate() {
                opened.browser.eval(&format!(
                    "page.main.axis.show({frame} - 4, {frame} + 8); page.choose({frame}, {{ still: true }})"
                ));
                opened.browser.settle();
                assert_eq!(
                    lanes_at(&mut opened.browser, frame),
                    expected::lanes(state),
                    "{name}, {theme}, frame {frame}"
                );
            }
            opened.browser.key("d");
        }
    }
    assert_eq!(opened.browser.complaints, Vec::<String>::new());
}

/// Of a lively session: the tables and the trails of reissues, at frames all over it.
#[test]
fn the_tables_are_the_other_implementations_items() {
    let input = lively::session(3, 6_000);
    let page = page_of("lively", &[("lively.session", &input)], "");
    let states = expected::states(&input);
    let mut opened = browser("tables");
    opened.browser.open(&page, "");
    let frames: Vec<usize> = (0..6_000).step_by(61).chain([255, 256, 257, 5_999, 6_000]).collect();
    compare_tables(&mut opened.browser, &states, &frames, "lively");
    let trails = "page.main.session.found.reissues.map(frame => { page.choose(frame); \
                  return document.querySelectorAll('.tables .issued').length + ' ' + page.main.session.reissues(frame); }).join()";
    let trails = opened.browser.text(trails);
    assert!(trails.split(',').count() > 20, "{trails}");
    assert!(trails.split(',').all(|trail| trail.split_once(' ').is_some_and(|(told, due)| told == due)), "{trails}");
    assert_eq!(opened.browser.complaints, Vec::<String>::new());
}

/// Configurations of all sizes, lines that are refused, and a session of its configuration alone.
#[test]
fn sessions_of_every_size_are_shown() {
    let mut opened = browser("sizes-of-sessions");
    let scripts = (0..8).map(|seed| {
        let tasks = [1, 2, 40, 126][seed as usize % 4];
        Generator::new(70 + seed).script(tasks..=tasks, 300).lines()
    });
    let damaged =
        [&story("queue")[..], b"\n0701\n07010000zz\t\x00\xFF</script>\n", &b"A".repeat(5_000), b"\n0701000000\r\n"]
            .concat();
    let alone = b"020101010101007D00000101".to_vec();
    for (place, input) in scripts.chain([damaged, alone]).enumerate() {
        let states = expected::states(&input);
        let page = page_of(&format!("size-{place}"), &[("a.session", &input)], "");
        opened.browser.open(&page, "");
        let last = states.len() - 1;
        let frames: Vec<usize> = (0..last).step_by(29).chain([last]).collect();
        compare_tables(&mut opened.browser, &states, &frames, &format!("session {place}"));
        for key in ["+", "a", "-", "a", "0", "p"] {
            opened.browser.key(key);
        }
        assert_eq!(opened.browser.complaints, Vec::<String>::new(), "session {place}");
    }
}

#[test]
fn what_a_frame_changed_is_marked_and_the_trail_told() {
    let input = story("station");
    let page = page_of("marked-changes", &[("station.session", &input)], "t1 gate\nt2 lap\ns2 train-in");
    let mut opened = browser("changes");
    opened.browser.open(&page, "#f=9");
    let changed = "[...document.querySelectorAll('.tables td.changed')].map(cell => cell.closest('tr').dataset.key + ' ' + cell.textContent).join('; ')";
    let due = "t1 event wait; t1 gate's own semaphore; t1 gate's own semaphore; t2 running; t2 ; t2 none; \
               t2 message 1 from gate with gate's own semaphore; s4 WAITING with gate";
    assert_eq!(opened.browser.text(changed), due);
    let trail =
        opened.browser.text("[...document.querySelectorAll('.trail li')].map(line => line.textContent).join(' ')");
    assert_eq!(trail, "The message wakes lap. The receive from gate of lap is issued again: it completes.");
    let head = opened.browser.text("document.querySelector('.tables .asked').textContent");
    assert_eq!(head, "9  gate sends message 1 to lap with its own semaphore and waits");
    opened.browser.eval("page.choose(12)");
    let since = opened.browser.text("document.querySelector('.tasks tr[data-key=t1] .since').textContent");
    assert_eq!(since, "#9 (3 frames)");
}

/// Of the operator's terminate: what it dropped and signalled, the arrow to the task that this woke, the frames that touch a message
/// and a semaphore; and at the end the operator is one who could wake that task.
#[test]
fn dropped_messages_are_told_and_whom_they_woke() {
    let input = story("display");
    let names = std::fs::read_to_string(crate::repository().join("examples/display.names")).expect("its names");
    let page = page_of("dropped", &[("display.session", &input)], &names);
    let mut opened = browser("dropped");
    opened.browser.open(&page, "#f=12");
    let trail =
        opened.browser.text("[...document.querySelectorAll('.trail li')].map(line => line.textContent).join(' ')");
    let speed = "Message speed from ride is dropped and signals semaphore shown.";
    let picture = "Message picture from photo is dropped and signals photo's own semaphore.";
    assert_eq!(trail, format!("{speed} {picture} Photo's own semaphore wakes photo."));
    let changed = "[...document.querySelectorAll('.semaphores tr, .mailboxes tr')].filter(row => row.querySelector('.changed')).map(row => row.dataset.key + ' ' + row.cells[1].textContent).join('; ')";
    assert_eq!(opened.browser.text(changed), "s3 DONE; s6 PENDING; t4 empty");
    let arrows = "(({ frame, from, to }) => frame.map((at, i) => at === 12 ? from[i] + ' ' + to[i] : '').join(''))(page.main.session.woken)";
    assert_eq!(opened.browser.text(arrows), "1 3");
    for (key, due) in [("m2", "5,12,20,26"), ("s3", "3,10,12,17,18,25")] {
        let touched = format!("(touches => Array.from({{ length: page.main.session.count }}, (_, frame) => frame).filter(touches).join())(page.main.session.toucher('{key}'))");
        assert_eq!(opened.browser.text(&touched), due, "{key}");
    }
    let could = "[...document.querySelectorAll('table[data-title=\"Stuck at the end\"] tbody tr')].map(row => row.cells[0].textContent + ': ' + row.cells[3].textContent).find(row => row.startsWith('photo'))";
    let due = "photo: a signal of photo's own semaphore; before: operator (1 time, waits itself), display (1 time, waits itself); a timer will in 4 tocks";
    assert_eq!(opened.browser.text(could), due);
    assert_eq!(opened.browser.complaints, Vec::<String>::new());
}

/// A task that is started only after others says so beside its name, and which of them are idle.
#[test]
fn pairs_stand_beside_the_tasks() {
    let input = b"050000000001006400000101000103020303040103\n0B02000000\n";
    let page = page_of("pairs", &[("pairs.session", input)], "t1 station");
    let mut opened = browser("pairs");
    opened.browser.open(&page, "#f=1");
    let told = "[...document.querySelectorAll('.tasks tr[data-key]')].map(row => row.cells[0].textContent).join('|')";
    let due = "1 station|task 2|task 3 only after station, 2 (idle)|task 4 only after 3 (idle)|task 5";
    assert_eq!(opened.browser.text(told), due);
    assert_eq!(opened.browser.complaints, Vec::<String>::new());
}

/// At both widths, in both themes, with every part shown.
#[test]
fn no_text_is_below_twelve_pixels_and_nothing_is_wider_than_the_page() {
    let input = lively::session(4, 2_000);
    let page = page_of("sizes", &[("a.session", &input)], "");
    let mut opened = browser("sizes");
    let least = r#"Math.min(...[...document.querySelectorAll("body *")]
      .filter(part => [...part.childNodes].some(node => node.nodeType === 3 && node.data.trim()))
      .filter(part => !["SCRIPT", "STYLE", "TEMPLATE"].includes(part.tagName))
      .map(part => parseFloat(getComputedStyle(part).fontSize)))"#;
    for width in [1280, 1920] {
        opened.browser.size(width, 900);
        opened.browser.open(&page, "#f=900");
        opened.browser.key("p");
        assert!(opened.browser.number(least) >= 12.0);
        assert_eq!(opened.browser.number("document.documentElement.scrollWidth"), width as f64);
        let canvas = "Math.min(...[...document.querySelectorAll('canvas')].map(part => parseFloat(part.getContext('2d').font.match(/[\\d.]+px/)[0])).filter(size => size !== 10))";
        assert!(opened.browser.number(canvas) >= 12.0);
    }
    let printed = opened.browser.printed();
    assert!(printed.starts_with(b"%PDF") && printed.len() > 10_000, "a printed page");
    assert_eq!(opened.browser.complaints, Vec::<String>::new());
}
