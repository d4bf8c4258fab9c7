//! Pictures for people who change how the page looks.

use crate::chromium::{self, Browser};
use crate::{busiest_of, lively, repository, story};

/// Writes pictures to look at: `cargo test --offline -p view --test browser -- --ignored pictures`.
#[test]
#[ignore = "for people: it writes pictures to target/pictures"]
fn pictures() {
    let folder = repository().join("target/pictures");
    std::fs::create_dir_all(&folder).unwrap();
    let mut browser = Browser::start(&chromium::program().expect("chromium"), "pictures");
    let names = std::fs::read_to_string(repository().join("examples/station.names")).unwrap();
    let names = view::names::Names::read(&names).unwrap();
    let station = std::fs::read(repository().join("examples/station.session")).unwrap();
    let other: Vec<u8> = String::from_utf8(station.clone()).unwrap().replace("1100020000", "1100030000").into_bytes();
    let long = lively::session(1, 50_000);
    let (race, busy) = (story("race"), lively::session(2, 4_096));
    let make = |sessions: &[(&str, &[u8])], names, w: Option<usize>| {
        let stretches: Vec<_> = sessions.iter().filter_map(|(_, input)| w.map(|w| busiest_of(input, w))).collect();
        view::page::make(c::caller::Caller::Controller, sessions, names, &stretches).expect("a page").html
    };
    let none = view::names::Names::default();
    let pages = [
        ("station", make(&[("station.session", &station)], &names, None)),
        ("long", make(&[("long.session", &long)], &none, None)),
        ("two", make(&[("station.session", &station), ("other.session", &other)], &names, None)),
        ("race", make(&[("race.session", &race)], &none, Some(5))),
        ("busy", make(&[("busy.session", &busy)], &none, Some(40))),
    ];
    for (name, html) in &pages {
        std::fs::write(folder.join(format!("{name}.html")), html).unwrap();
    }
    let save = |browser: &mut Browser, name: &str| {
        std::fs::write(folder.join(format!("{name}.png")), browser.picture()).unwrap();
    };
    for (width, height) in [(1280, 800), (1920, 1080)] {
        browser.size(width, height);
        let shown = [("station", "#f=9"), ("long", "#f=25000"), ("two", "#f=14"), ("race", "#f=12"), ("busy", "")];
        for (name, hash) in shown {
            browser.open(&folder.join(format!("{name}.html")), hash);
            if name == "long" {
                browser.key("0");
                save(&mut browser, &format!("{name}-{width}-whole"));
                (0..10).for_each(|_| browser.key("+"));
                browser.key("p");
            }
            if name == "race" {
                browser.key("p");
                browser.eval("document.querySelector('.summary').scrollTop = 10000");
            }
            save(&mut browser, &format!("{name}-{width}"));
            browser.key("d");
            save(&mut browser, &format!("{name}-{width}-dark"));
            browser.key("d");
        }
    }
    browser.size(1120, 700);
    browser.open(&folder.join("station.html"), "#f=9");
    save(&mut browser, "readme");
    browser.size(1280, 800);
    browser.open(&folder.join("long.html"), "#f=12000");
    save(&mut browser, "long-1280-near");
    browser.call("Emulation.setEmulatedMedia", vec![("media", "print".into())]);
    browser.size(1280, 2400);
    save(&mut browser, "long-print");
    browser.call("Emulation.setEmulatedMedia", vec![("media", "".into())]);
    browser.open(&folder.join("station.html"), "#f=9");
    std::fs::write(folder.join("station.pdf"), browser.printed()).unwrap();
    assert_eq!(browser.complaints, Vec::<String>::new());
}
