//! docs/SHEET.md: every name on it is declared where the page says that it stands, and every edit, command and link is there.
//!
//! In a paragraph or an item of a list, what is in backquotes is one of four: a name; the file of all names before it; a
//! must-fail edit; a command. `Record.field` is a field of that record. Files and edits are below crates/.
//!
//! docs/sheet.html, the sheet for printing, is what docs/print-sheet makes of it: with every word, and on two pages.

use std::fs;
use std::path::{Path, PathBuf};
use std::process::Command;

fn repository() -> PathBuf {
    Path::new(env!("CARGO_MANIFEST_DIR")).join("..")
}

fn text(path: &str) -> Option<String> {
    fs::read_to_string(repository().join(path)).ok()
}

// ---- declarations

/// The name that a line declares as `pub`, of antt or Rattle, and whether it is a record.
fn declared(line: &str) -> Option<(&str, bool)> {
    let line = line.trim_start();
    let line = ["abbrev ", "unfoldable "].iter().find_map(|word| line.strip_prefix(word)).unwrap_or(line);
    let line = line.strip_prefix("pub ")?;
    let record = line.strip_prefix("record ");
    let words = ["data ", "extern \"C\" fn ", "fn ", "struct ", "enum ", "const "];
    let name = record.or_else(|| words.iter().find_map(|word| line.strip_prefix(word))).unwrap_or(line);
    let end = name.find([' ', '(', ':', ';', '<']).unwrap_or(name.len());
    Some((&name[..end], record.is_some()))
}

fn declares(source: &str, name: &str) -> bool {
    let Some((record, field)) = name.split_once('.') else {
        return source.lines().filter_map(declared).any(|found| found.0 == name);
    };
    let body = source.lines().skip_while(|line| declared(line) != Some((record, true))).skip(1);
    let mut fields = body.take_while(|line| line.starts_with(' ') || line.is_empty());
    fields.any(|line| declared(line).is_some_and(|found| found.0 == field))
}

// ---- commands

fn is_crate(name: &str) -> bool {
    let list = text("crates.txt").expect("crates.txt");
    list.lines().filter_map(|line| line.split_once(':')).any(|(listed, _)| listed == name)
}

/// A file of the repository, `./build` with what it builds, or `rt` with one of its own commands and crates that are listed.
fn is_command(command: &str) -> bool {
    let mut words = command.split_whitespace();
    match words.next().unwrap_or("") {
        "rt" => is_command_of_rt(words.next().unwrap_or("")) && words.all(is_crate),
        "./build" => words.next().is_some_and(is_built) && words.next().is_none(),
        program => repository().join(program).is_file() && words.next().is_none(),
    }
}

fn is_built(name: &str) -> bool {
    let build = text("build").expect("build");
    build.lines().any(|line| line.strip_suffix(')') == Some(name))
}

/// A line of its help begins with it, alone or as one of several, as in `rt check|verdict|lib`.
fn is_command_of_rt(name: &str) -> bool {
    let help = Command::new("rt").arg("help").output().expect("rt on the PATH");
    let lists = |line: &str| {
        let usage =
            line.strip_prefix("usage: rt ").or_else(|| line.strip_prefix("  ")?.trim_start().strip_prefix("rt "));
        let commands = usage.and_then(|usage| usage.split_whitespace().next());
        commands.is_some_and(|commands| commands.split('|').any(|command| command == name))
    };
    String::from_utf8_lossy(&[help.stdout, help.stderr].concat()).lines().any(lists)
}

// ---- the page

/// Paragraphs and items of lists, each as one line.
fn parts(page: &str) -> Vec<String> {
    let begins = |line: &str| {
        let rest = line.trim_start_matches(|c: char| c.is_ascii_digit());
        line.starts_with("- ") || (rest.len() < line.len() && rest.starts_with(". "))
    };
    let mut parts = vec![String::new()];
    for line in page.lines() {
        if line.is_empty() || begins(line) {
            parts.push(String::new());
        }
        let part = parts.last_mut().expect("the first is there");
        part.push(' ');
        part.push_str(line.trim());
    }
    parts.retain(|part| !part.trim().is_empty());
    parts
}

fn quoted(part: &str) -> impl Iterator<Item = &str> {
    part.split('`').skip(1).step_by(2)
}

/// What is wrong in one part.
fn wrong_in(part: &str) -> Vec<String> {
    let mut wrong = Vec::new();
    if part.matches('`').count() % 2 != 0 {
        wrong.push(format!("a backquote without another:{part}"));
    }
    let mut names: Vec<&str> = Vec::new();
    for item in quoted(part) {
        if item.starts_with("./") || item.contains(' ') {
            if !is_command(item) {
                wrong.push(format!("{item}: no command"));
            }
        } else if item.ends_with(".edit") {
            if !item.contains("/must-fail/") || text(&format!("crates/{item}")).is_none() {
                wrong.push(format!("{item}: no edit"));
            }
        } else if item.contains('/') {
            if names.is_empty() {
                wrong.push(format!("{item}: a place without a name"));
            }
            match text(&format!("crates/{item}")) {
                None => wrong.push(format!("{item}: no file")),
                Some(source) => {
                    let absent = names.iter().filter(|name| !declares(&source, name));
                    wrong.extend(absent.map(|name| format!("{name}: not in {item}")));
                }
            }
            names.clear();
        } else {
            names.push(item);
        }
    }
    wrong.extend(names.iter().map(|name| format!("{name}: a name without a place")));
    wrong
}

/// What is wrong on a page, its links with it.
fn wrong_on(page: &str) -> Vec<String> {
    let mut wrong: Vec<String> = parts(page).iter().flat_map(|part| wrong_in(part)).collect();
    let links = page.split("](").skip(1).filter_map(|rest| rest.split_once(')')).map(|(link, _)| link);
    let files = links.map(|link| link.split('#').next().unwrap_or(link));
    let absent = files.filter(|file| !repository().join("docs").join(file).exists());
    wrong.extend(absent.map(|file| format!("{file}: no file behind the link")));
    wrong
}

#[test]
fn everything_that_the_sheet_cites_is_there() {
    let sheet = text("docs/SHEET.md").expect("docs/SHEET.md");
    let wrong = wrong_on(&sheet);
    assert!(wrong.is_empty(), "docs/SHEET.md:\n{}", wrong.join("\n"));

    // and the page was read: statements, edits and a command
    let parts = parts(&sheet);
    let items: Vec<&str> = parts.iter().flat_map(|part| quoted(part)).collect();
    for some in ["demand_3", "Same.answers", "theorems/specs/Same.antt", "clock/must-fail/ticks_ignored.edit", "./test"]
    {
        assert!(items.contains(&some), "docs/SHEET.md does not cite {some}");
    }
}

#[test]
fn a_wrong_page_is_found_out() {
    let pages = [
        ("`demand_3` in `theorems/proofs/Demand3.antt`; `./build session`, `rt ci ledger`, `./test` and [a link](SHEET.md)", None),
        ("- `demand_3`, `configures`\n  in `theorems/proofs/Demand3.antt`", None),
        ("`demand_4` in `theorems/proofs/Demand3.antt`", Some("demand_4: not in")),
        ("`demand_3` in `theorems/specs/Same.antt`", Some("demand_3: not in")),
        ("`by_contract` in `theorems/proofs/Demand3.antt`", Some("by_contract: not in")),
        ("`Same.number` in `theorems/specs/Same.antt`", Some("Same.number: not in")),
        ("`Sam.answers` in `theorems/specs/Same.antt`", Some("Sam.answers: not in")),
        ("`demand_3` in `theorems/proofs/Hole.antt`", Some("no file")),
        ("`demand_3`\n\n`Same` in `theorems/specs/Same.antt`", Some("demand_3: a name without a place")),
        ("- `demand_3`\n- `Same` in `theorems/specs/Same.antt`", Some("demand_3: a name without a place")),
        ("1. `demand_3`\n2. `Same` in `theorems/specs/Same.antt`", Some("demand_3: a name without a place")),
        ("in `theorems/specs/Same.antt`", Some("a place without a name")),
        ("`clock/must-fail/ticks_ignore.edit`", Some("no edit")),
        ("`clock/src/ticks_ignored.edit`", Some("no edit")),
        ("`./tests`", Some("no command")),
        ("`rt prove-all`", Some("no command")),
        ("`rt ci ledgers`", Some("no command")),
        ("`./build sessions`", Some("no command")),
        ("`demand_3", Some("a backquote without another")),
        ("[a link](SHEETS.md)", Some("no file behind the link")),
    ];
    for (page, expected) in pages {
        let wrong = wrong_on(page);
        match expected {
            None => assert!(wrong.is_empty(), "{page}: {wrong:?}"),
            Some(complaint) => assert!(wrong.iter().any(|found| found.contains(complaint)), "{page}: {wrong:?}"),
        }
    }
}

// ---- the sheet for printing

/// The words of the sheet without its marks: headings, lists, tables, names, bold, slanted, links.
fn words_of_sheet(sheet: &str) -> Vec<String> {
    let mut words = Vec::new();
    for line in sheet.lines().filter(|line| !line.starts_with("|---")) {
        let rest = line.trim_start_matches(|c: char| c.is_ascii_digit());
        let line = if rest.len() < line.len() { rest.strip_prefix(". ").unwrap_or(line) } else { line };
        let line = ["# ", "## ", "- "].iter().find_map(|mark| line.strip_prefix(mark)).unwrap_or(line);
        let line = line.replace(['`', '*', '|'], if line.starts_with('|') { " " } else { "" });
        let mut plain = String::new();
        for part in line.split("](") {
            // behind a link's text comes where it leads
            plain.push_str(if plain.is_empty() { part } else { part.split_once(')').map_or(part, |(_, rest)| rest) });
        }
        words.extend(plain.replace('[', "").split_whitespace().map(String::from));
    }
    words
}

/// The words between the tags of a page's body.
fn words_of_page(page: &str) -> Vec<String> {
    let body = page.split_once("<body>").expect("a body").1;
    let mut plain = String::new();
    for part in body.replace("</td><td>", " ").replace("</th><th>", " ").split('<') {
        plain.push_str(part.split_once('>').map_or(part, |(_, text)| text));
    }
    let plain = plain.replace("&lt;", "<").replace("&gt;", ">").replace("&amp;", "&");
    plain.split_whitespace().map(String::from).collect()
}

#[test]
fn the_sheet_for_printing_is_made_of_the_sheet() {
    let made = Command::new(repository().join("docs/print-sheet")).output().expect("docs/print-sheet");
    assert!(made.status.success(), "{}", String::from_utf8_lossy(&made.stderr));
    let page = text("docs/sheet.html").expect("docs/sheet.html");
    assert!(made.stdout == page.as_bytes(), "docs/sheet.html is old: docs/print-sheet > docs/sheet.html");
    let sheet = words_of_sheet(&text("docs/SHEET.md").expect("docs/SHEET.md"));
    assert_eq!(words_of_page(&page), sheet);
}

/// A font as wide as the page's first one. What stands in for it is wider, and takes a page more.
fn has_its_font() -> bool {
    let fonts = Command::new("fc-list").args([":", "family"]).output();
    fonts.is_ok_and(|list| {
        let families = String::from_utf8_lossy(&list.stdout).into_owned();
        ["Liberation Serif", "Times New Roman"].iter().any(|name| families.contains(name))
    })
}

/// Only where chromium and the page's font are installed.
#[test]
fn it_prints_on_two_pages() {
    if !has_its_font() {
        eprintln!("Liberation Serif is missing: not printed");
        return;
    }
    let folder = Path::new(env!("CARGO_TARGET_TMPDIR"));
    let (pdf, profile) = (folder.join("sheet.pdf"), folder.join("sheet-profile"));
    let page = repository().join("docs/sheet.html").canonicalize().expect("docs/sheet.html");
    let mut chromium = Command::new("chromium");
    chromium.args(["--headless", "--no-sandbox", "--disable-gpu", "--disable-dev-shm-usage", "--no-pdf-header-footer"]);
    chromium.arg(format!("--user-data-dir={}", profile.display())).arg(format!("--print-to-pdf={}", pdf.display()));
    let Ok(printed) = chromium.arg(format!("file://{}", page.display())).output() else {
        eprintln!("chromium is missing: not printed");
        return;
    };
    assert!(printed.status.success(), "{}", String::from_utf8_lossy(&printed.stderr));
    let pdf = fs::read(pdf).expect("a PDF");
    let pages = String::from_utf8_lossy(&pdf).matches("/Type /Page\n").count();
    assert_eq!(pages, 2, "docs/sheet.html takes {pages} pages");
}
