//! How the page is used: keys, mouse, search, links, two sessions; and how fast it is.

use std::collections::BTreeMap;

use plain_executive::executive::Executive;
use view::json::Json;

use crate::chromium::Browser;
use crate::{browser, expected, lively, page_of, story};

fn frame(browser: &mut Browser) -> usize {
    browser.number("page.frame") as usize
}

/// What is chosen by keys is chosen in the list, in the tables and in the link.
fn chosen(browser: &mut Browser) -> usize {
    let parts = "[document.querySelector('.row.chosen').dataset.frame, location.hash.slice(3), \
                 document.querySelector('.tables .asked').textContent.split('  ')[0]].join()";
    let told = browser.text(parts);
    let frame = frame(browser);
    assert_eq!(told, format!("{frame},{frame},{frame}"));
    frame
}

#[test]
fn keys_alone_are_enough() {
    let input = lively::session(5, 3_000);
    let page = page_of("keys", &[("keys.session", &input)], "");
    let states = expected::states(&input);
    let mut opened = browser("keys");
    let browser = &mut opened.browser;
    browser.open(&page, "");
    for (key, due) in
        [("ArrowRight", 1), ("ArrowRight", 2), ("ArrowLeft", 1), ("End", 3_000), ("ArrowRight", 3_000), ("Home", 0)]
    {
        browser.key(key);
        assert_eq!(chosen(browser), due, "{key}");
    }
    let seen = "page.window.to - page.window.from";
    let whole = browser.number(seen);
    browser.key("+");
    assert_eq!(browser.number(seen), whole / 2.0);
    browser.key("-");
    assert_eq!(browser.number(seen), whole);
    (0..5).for_each(|_| browser.key("+"));
    browser.key("PageDown");
    assert!(chosen(browser) > 50);
    browser.key("0");
    assert_eq!(browser.number(seen), whole);

    browser.key("Home");
    let script: Vec<&[u8]> = plain_executive::session::lines(&input).collect();
    let answers = String::from_utf8(plain_executive::session::run(&input)).unwrap();
    let answers: Vec<&str> = answers.lines().collect();
    let refused: Vec<usize> = (0..script.len()).filter(|frame| !answers[*frame].starts_with("00")).collect();
    let reissued: Vec<usize> = (0..script.len()).filter(|frame| &answers[*frame][4..6] != "00").collect();
    for (next, back, due) in [("r", "R", &refused), ("i", "I", &reissued)] {
        browser.key("Home");
        browser.key(next);
        browser.key(next);
        assert_eq!(chosen(browser), due[1], "{next}");
        browser.key(back);
        assert_eq!(chosen(browser), due[0], "{back}");
    }

    browser.key("Home");
    (0..3).for_each(|_| browser.key("ArrowDown"));
    assert_eq!(browser.text("page.subject"), "t3");
    browser.key("t");
    let found = chosen(browser);
    let item = |frame: usize| states[frame].items().tasks[2].clone();
    assert!((1..found).all(|frame| item(frame) == item(frame - 1)), "task 3 changed before frame {found}");

    browser.key("a");
    assert_eq!(browser.text("page.window.kind"), "tocks");
    browser.key("a");
    browser.key("d");
    assert_eq!(browser.text("document.documentElement.className"), "dark");
    browser.key("p");
    assert_eq!(browser.text("document.querySelector('[data-for]:not([hidden])').dataset.for"), "summary");
    browser.key("?");
    assert_eq!(browser.text("String(document.getElementById('help').open)"), "true");
    assert_eq!(browser.complaints, Vec::<String>::new());
}

#[test]
fn search_finds() {
    let input = lively::session(6, 3_000);
    let page = page_of("search", &[("search.session", &input)], "t3 brake\nq2 orders");
    let mut opened = browser("search");
    let browser = &mut opened.browser;
    browser.open(&page, "#f=0");
    let words = "Array.from({ length: page.main.session.count }, (_, frame) => \
                 page.main.session.askedWords(frame) + ': ' + page.main.session.answerWords(frame)).join('\\n')";
    let words = browser.text(words);
    let holding = |part: &str| -> Vec<usize> {
        words.lines().enumerate().filter(|(_, line)| line.contains(part)).map(|(frame, _)| frame).collect()
    };
    for (typed, due) in
        [("brake", holding("brake")), ("queue orders", holding("queue orders")), ("21", holding("refused 21,"))]
    {
        assert!(due.len() > 2, "{typed}");
        browser.eval("page.choose(0); document.getElementById('search').value = ''");
        browser.key("/");
        typed.chars().for_each(|letter| browser.key(&letter.to_string()));
        browser.key("Enter");
        assert_eq!(chosen(browser), due.iter().copied().find(|frame| *frame > 0).unwrap(), "{typed}");
        assert_eq!(browser.text("document.getElementById('found').textContent"), format!("{} frames", due.len()));
        browser.key("Escape");
        browser.key("n");
        assert_eq!(chosen(browser), due.iter().copied().filter(|frame| *frame > 0).nth(1).unwrap(), "{typed}");
        browser.key("N");
    }
    browser.eval("document.getElementById('search').value = ''");
    browser.key("/");
    "#1500".chars().for_each(|letter| browser.key(&letter.to_string()));
    browser.key("Enter");
    assert_eq!(chosen(browser), 1500);
    browser.eval("location.hash = '#f=700'; new Promise(done => setTimeout(done, 50))");
    assert_eq!(chosen(browser), 700);
    browser.open(&page, "#f=1234");
    assert_eq!(chosen(browser), 1234);
    assert_eq!(browser.complaints, Vec::<String>::new());
}

#[test]
fn the_mouse_chooses_zooms_and_moves() {
    let input = lively::session(7, 3_000);
    let page = page_of("mouse", &[("mouse.session", &input)], "");
    let mut opened = browser("mouse");
    let browser = &mut opened.browser;
    browser.open(&page, "#f=0");
    let left = browser.number("document.querySelector('.lanes').getBoundingClientRect().left");
    let top = browser.number("document.querySelector('.lanes').getBoundingClientRect().top");
    browser.click(left + 400.0, top + 120.0);
    let due = browser.number("page.main.axis.frameAt(400)");
    assert!((frame(browser) as f64 - due).abs() <= 6.0, "{} and {due}", frame(browser));
    browser.click(left + 20.0, top + 120.0);
    assert_eq!(browser.text("page.subject"), "t2");
    let wheel = |browser: &mut Browser, y: i64| {
        let turn = if y < 0 { Json::Word("-100") } else { Json::Number(100) };
        browser.mouse("mouseWheel", left + 400.0, top + 120.0, vec![("deltaX", Json::Number(0)), ("deltaY", turn)]);
        browser.settle();
        browser.settle();
    };
    let seen = "page.window.to - page.window.from";
    let before = browser.number(seen);
    (0..4).for_each(|_| wheel(browser, -1));
    assert!(browser.number(seen) < before / 2.0);
    let from = browser.number("page.window.from");
    let press = vec![("button", Json::from("left")), ("clickCount", Json::Number(1))];
    browser.mouse("mousePressed", left + 500.0, top + 120.0, press);
    browser.mouse("mouseMoved", left + 300.0, top + 120.0, vec![("buttons", Json::Number(1))]);
    browser.mouse("mouseReleased", left + 300.0, top + 120.0, vec![("button", "left".into())]);
    assert!(browser.number("page.window.from") > from);
    browser.click(left + 600.0, browser_overview(top));
    assert!(browser.number("page.window.from") > 1_500.0);
    let row = "document.querySelectorAll('.row')[3].getBoundingClientRect()";
    let (x, y) = (browser.number(&format!("{row}.left")), browser.number(&format!("{row}.top")));
    let due = browser.text("document.querySelectorAll('.row')[3].dataset.frame");
    browser.click(x + 100.0, y + 10.0);
    assert_eq!(chosen(browser).to_string(), due);
    assert_eq!(browser.complaints, Vec::<String>::new());
}

/// The overview lies above the legend and the lanes.
fn browser_overview(lanes_top: f64) -> f64 {
    lanes_top - 50.0
}

#[test]
fn two_sessions_side_by_side() {
    let station = story("station");
    let other = String::from_utf8(station.clone()).unwrap().replace("1100020000", "1100030000").into_bytes();
    let page = page_of("two", &[("a.session", &station), ("b.session", &other)], "");
    let mut opened = browser("two");
    let browser = &mut opened.browser;
    browser.open(&page, "#f=14");
    let told =
        browser.text("[...document.querySelectorAll('#differences p')].map(line => line.textContent).join('; ')");
    assert_eq!(
        told,
        "First frame that differs: #14 interrupt exit, signals semaphore 2 | interrupt exit, signals semaphore 3; \
         First answer that differs: #14 task 2 runs, has semaphore 2 | the null task runs; \
         First item that differs: #14 the blocks of task 2"
    );
    let rows = "[...document.querySelectorAll('.session')].map(part => [...part.querySelectorAll('.row')].filter(row => row.classList.contains('differs')).map(row => row.dataset.frame).join()).join(' ')";
    browser.eval("page.choose(18)");
    let marked = browser.text(rows);
    let (one, two) = marked.split_once(' ').unwrap();
    assert!(one == two && one.starts_with("14,15,16,17,18"), "{marked}");
    browser.eval("page.choose(14)");
    let cells = browser.text("[...document.querySelectorAll('.session:last-child .tables td.differs')].map(cell => cell.textContent).join('; ')");
    assert_eq!(cells, "event wait; semaphore 2; WAITING with task 2; DONE");
    browser.eval("page.choose(13)");
    assert_eq!(browser.number("document.querySelectorAll('td.differs').length"), 0.0);
    browser.key("r");
    assert_eq!(chosen(browser), 15, "refused in the second session alone");
    browser.eval("page.choose(0)");
    browser.key("/");
    "has semaphore 4".chars().for_each(|letter| browser.key(&letter.to_string()));
    browser.key("Enter");
    assert_eq!(chosen(browser), 16, "in the first session alone");
    assert_eq!(browser.complaints, Vec::<String>::new());
}

/// The tables of the whole session, against counts of the answers.
#[test]
fn the_whole_session_is_counted_right() {
    let input = lively::session(8, 5_000);
    let page = page_of("whole", &[("whole.session", &input)], "");
    let mut opened = browser("whole");
    let browser = &mut opened.browser;
    browser.open(&page, "");
    let answers = String::from_utf8(plain_executive::session::run(&input)).unwrap();
    let byte = |answer: &str, place: usize| u8::from_str_radix(&answer[2 * place..2 * place + 2], 16).unwrap();
    let row = |browser: &mut Browser, title: &str, first: &str| {
        browser.text(&format!(
            "[...([...document.querySelectorAll('table[data-title=\"{title}\"] tbody tr')].find(row => row.cells[0].textContent === '{first}') || {{ cells: [] }}).cells].map(cell => cell.textContent).join('|')"
        ))
    };
    for task in 0..=12u8 {
        let ran = answers.lines().filter(|answer| byte(answer, 1) == task).count();
        let name = if task == 0 { "the null task".to_string() } else { format!("task {task}") };
        let due = format!("{name}|{}|{:.1} %", view::words::grouped(ran), 100.0 * ran as f64 / 5_001.0);
        assert_eq!(row(browser, "Share of frames", &name), due);
    }
    for number in [21, 22] {
        let refused: Vec<usize> = answers
            .lines()
            .enumerate()
            .filter(|(_, answer)| byte(answer, 0) == number)
            .map(|(frame, _)| frame)
            .collect();
        let (first, last) = (refused[0], refused[refused.len() - 1]);
        let told = row(browser, "Refusals by number", &number.to_string());
        assert!(told.ends_with(&format!("|{}|#{first}|#{last}", view::words::grouped(refused.len()))), "{told}");
    }
    let states = expected::states(&input);
    for queue in 1..=3u8 {
        let fills: Vec<usize> = states.iter().map(|state| state.held(queue).len()).collect();
        let most = *fills.iter().max().unwrap();
        let first = fills.iter().position(|fill| *fill == most).unwrap();
        let depth = states[0].configuration().queues[usize::from(queue) - 1].depth;
        let due = format!("queue {queue}|{most}|{depth}|#{first}");
        assert_eq!(row(browser, "High-water marks", &format!("queue {queue}")), due);
    }
    let waiting: Vec<String> = (1..=12)
        .filter(|task| {
            let blocks = states[5_000].tasks().get(*task).blocks();
            blocks.waits() || blocks.has(plain_executive::tasks::Block::Suspended)
        })
        .map(|task| format!("task {task}"))
        .collect();
    let stuck = browser.text("[...document.querySelectorAll('table[data-title=\"Stuck at the end\"] tbody tr')].map(row => row.cells[0].textContent).join()");
    assert_eq!(stuck, waiting.join(","));
    for (typed, w) in [("100", 100), ("1", 1), ("7.9", 7), ("5000", 5_000), ("6000", 5_000), ("-2", 1), ("", 1)] {
        browser.eval(&format!("{{ const input = document.querySelector('.summary input'); input.value = '{typed}'; input.dispatchEvent(new Event('input')); }}"));
        let (first, last, most) = crate::stretch::busiest(&input, w);
        let due = format!(" frames: from #{first} to #{last}, {}", view::words::counted(most as usize, "reissue"));
        assert_eq!(browser.text("document.querySelector('.busiest').textContent"), due, "{typed}");
    }
    turns_are_counted_right(browser, &states);
}

/// By task, semaphore and whether they are cyclic: the turns of the table's rows, and the timers that were due when a tock passed.
fn turns_are_counted_right(browser: &mut Browser, states: &[Executive]) {
    let rows = browser.text("[...document.querySelectorAll('table[data-title=\"Turns of timers\"] tbody tr')].map(row => [...row.cells].map(cell => cell.textContent).join('|')).join('\\n')");
    let (mut shown, mut due) = (BTreeMap::<_, Vec<usize>>::new(), BTreeMap::<_, usize>::new());
    for row in rows.lines() {
        let [whose, on, goes, _, turns, ..] = row.split('|').collect::<Vec<_>>()[..] else { panic!("{row}") };
        let of = (whose.to_string(), on.to_string(), goes.starts_with("every "));
        shown.entry(of).or_default().push(turns.replace(',', "").parse().expect("a number"));
    }
    for two in states.windows(2) {
        let now = two[1].clock().tocks();
        let all = two[0].timers().active().iter().filter(|_| now > two[0].clock().tocks());
        for timer in all.filter(|timer| timer.due == now) {
            let of = (format!("task {}", timer.task), format!("semaphore {}", timer.semaphore), timer.period != 0);
            *due.entry(of).or_default() += 1;
        }
    }
    assert!(shown.values().all(|rows| rows.len() <= 4), "more than four have one row");
    let shown = shown.into_iter().map(|(of, rows)| (of, rows.iter().sum::<usize>())).filter(|(_, turns)| *turns > 0);
    assert!(due.keys().any(|of| of.2) && due.keys().any(|of| !of.2), "of both kinds");
    assert_eq!(shown.collect::<BTreeMap<_, _>>(), due);
}

/// Measured in the browser: how long a session of 50,000 frames takes to load, and each picture of it to draw.
#[test]
fn fifty_thousand_frames_are_smooth() {
    let input = lively::session(9, 50_000);
    let page = page_of("fifty", &[("fifty.session", &input)], "");
    let mut opened = browser("fifty");
    let browser = &mut opened.browser;
    browser.open(&page, "#f=25000");
    let loaded = browser.number("page.loaded");
    let mut times = Vec::new();
    for key in [
        "0",
        "+",
        "+",
        "+",
        "PageDown",
        "PageUp",
        "+",
        "+",
        "+",
        "+",
        "+",
        "PageDown",
        "ArrowRight",
        "r",
        "i",
        "a",
        "0",
        "a",
    ] {
        browser.key(key);
        times.push(browser.number("page.drawn.last"));
    }
    times.sort_by(f64::total_cmp);
    let (middle, longest) = (times[times.len() / 2], times[times.len() - 1]);
    println!("50,000 frames: loaded in {loaded:.0} ms; a picture takes {middle:.1} ms, at worst {longest:.1} ms");
    assert!(loaded < 5_000.0, "{loaded}");
    assert!(middle < 50.0 && longest < 300.0, "{times:?}");
    assert_eq!(browser.complaints, Vec::<String>::new());
}

/// Not in the gate: `cargo test --offline -p view --test browser -- --ignored --nocapture million`.
#[test]
#[ignore = "for people: a million frames"]
fn a_million_frames_are_usable() {
    let input = lively::session(10, 1_000_000);
    let page = page_of("million", &[("million.session", &input)], "");
    println!("a million frames: {} bytes of page", std::fs::metadata(&page).unwrap().len());
    let mut opened = browser("million");
    let browser = &mut opened.browser;
    browser.open(&page, "#f=500000");
    println!("loaded in {:.0} ms", browser.number("page.loaded"));
    for key in ["0", "+", "+", "+", "PageDown", "ArrowRight", "r", "i", "t", "0", "a", "a", "End", "Home"] {
        let began = std::time::Instant::now();
        browser.key(key);
        println!("{key}: drawn in {:.1} ms, {:?} in all", browser.number("page.drawn.last"), began.elapsed());
    }
    assert_eq!(browser.complaints, Vec::<String>::new());
}
