//! docs/FRAMES.md: a block for each code; its examples answer as printed; its numbers are those that sessions meet, in the order
//! of document 01; its calls are the header's.

mod tools;

use plain_executive::executive::Executive;
use plain_executive::generator::Generator;
use plain_executive::session;
use std::collections::{BTreeMap, BTreeSet};
use std::process::Command;
use tools::{printed, repository, text};

/// One code's block of the page.
struct Block {
    code: u8,
    name: String,
    /// What stands behind each of the block's words: Fields, Does, Outcome, Numbers, Example.
    parts: BTreeMap<String, String>,
}

fn blocks(page: &str) -> Vec<Block> {
    let block = |piece: &str| {
        let (title, body) = piece.split_once('\n').expect("a title");
        let (code, rest) = title.split_at(2);
        let (name, manual) = rest.trim().split_once(": ").unwrap_or_else(|| panic!("{title}"));
        assert!(manual.contains('`') && manual.contains("section "), "{title}: the manual's name and its section");
        let body = body.split("\n## ").next().expect("a body");
        let parts = body.split("\n- ").skip(1).map(|part| {
            let (word, rest) = part.split_once(": ").unwrap_or_else(|| panic!("{title}: {part}"));
            (word.to_string(), rest.split("\n\n").next().expect("a part").replace("\n ", ""))
        });
        Block { code: u8::from_str_radix(code, 16).expect("a code"), name: name.to_string(), parts: parts.collect() }
    };
    page.split("\n### $").skip(1).map(block).collect()
}

/// The lines and answers of a text, `line` → `answer`.
fn pairs(text: &str) -> Vec<(String, String)> {
    let quoted: Vec<&str> = text.split('`').collect();
    let pair = |three: &[&str]| {
        (three[1].trim() == "→")
            .then(|| (three[0].to_string(), three[2].to_string()))
            .filter(|(line, _)| !line.is_empty())
    };
    quoted.windows(3).filter_map(pair).collect()
}

/// What the session program prints for these lines; the other implementation prints the same.
fn answers(lines: &[String]) -> Vec<String> {
    let input = lines.join("\n");
    let answers = printed(&mut Command::new(repository().join("target/bin/session")), input.as_bytes());
    assert_eq!(answers.as_bytes(), session::run(input.as_bytes()), "{input}");
    answers.lines().map(str::to_string).collect()
}

#[test]
fn there_is_a_block_for_each_code() {
    let page = text("docs/FRAMES.md");
    let header = text("host/mcx11.h");
    let blocks = blocks(&page);
    assert_eq!(blocks.iter().map(|block| block.code).collect::<Vec<_>>(), (1..=0x12).collect::<Vec<_>>());
    for block in blocks {
        let enumerator = block.name.to_uppercase().replace(' ', "_");
        assert!(header.contains(&format!("MCX11_{enumerator} = 0x{:02X}", block.code)), "{}", block.name);
        let words: Vec<&str> = block.parts.keys().map(String::as_str).collect();
        assert_eq!(words, ["Does", "Example", "Fields", "Numbers", "Outcome"], "{}", block.name);
    }
}

#[test]
fn the_examples_answer_as_printed() {
    let page = text("docs/FRAMES.md");
    let (front, _) = page.split_once("\n## ").expect("sections");
    let [(configuration, answer)] = &pairs(front)[..] else { panic!("one configuration in front") };
    assert_eq!(answers(&[configuration.clone()]), [answer.clone()]);
    let mut run = 1;
    for block in blocks(&page) {
        let example = pairs(&block.parts["Example"]);
        assert!(!example.is_empty(), "{}", block.name);
        let is_its_own = |(frame, _): &(String, String)| frame.starts_with(&format!("{:02X}", block.code));
        assert!(example.iter().any(is_its_own), "{}: no example of its code", block.name);
        let (frames, due): (Vec<String>, Vec<String>) = example.into_iter().unzip();
        let lines: Vec<String> = std::iter::once(configuration.clone()).chain(frames).collect();
        assert_eq!(answers(&lines)[1..], due, "{}", block.name);
        run += due.len();
    }
    let (_, behind) = page.split_once("\n## The configuration\n").expect("the configuration");
    for (line, due) in pairs(behind) {
        assert_eq!(answers(&[line]), [due]);
        run += 1;
    }
    assert_eq!(run, page.matches('→').count(), "lines and answers that belong to no example");
}

/// The order of document 01, with document 02's 26; the second 2 is the width of an enqueue's entry.
const ORDER: [u8; 16] = [2, 4, 20, 5, 6, 7, 8, 9, 2, 25, 26, 22, 21, 24, 23, 11];

fn numbers(block: &Block) -> Vec<u8> {
    let (numbers, _) = block.parts["Numbers"].split_once("Call:").expect("a call");
    let mut plain = String::new();
    let mut depth = 0;
    for letter in numbers.chars() {
        depth += i32::from(letter == '(');
        plain.extend((depth == 0).then_some(letter));
        depth -= i32::from(letter == ')');
    }
    let number = |word: &str| word.trim().parse().unwrap_or_else(|_| panic!("{}: {word}", block.name));
    plain.trim().trim_end_matches('.').split(',').map(number).collect()
}

#[test]
fn the_numbers_are_those_that_sessions_meet_in_order() {
    let mut met: BTreeMap<u8, BTreeSet<u8>> = BTreeMap::new();
    for seed in 0..3000 {
        let tasks = [1, 2, 5, 9][seed as usize % 4];
        let script = Generator::new(seed).script(1..=tasks, 300);
        let mut executive = Executive::configure(&script.configuration).expect("accepted");
        for frame in &script.frames {
            let refusal = executive.frame(frame).refusal();
            if let Some(&code @ 1..=0x12) = frame.first() {
                met.entry(code).or_default().insert(refusal);
            }
        }
    }
    for block in blocks(&text("docs/FRAMES.md")) {
        let listed = numbers(&block);
        let mut order = ORDER.iter();
        assert!(
            listed.iter().all(|number| order.any(|next| next == number)),
            "{}: the order of {listed:?}",
            block.name
        );
        let met = met[&block.code].iter().copied().filter(|&number| number != 0).collect::<BTreeSet<_>>();
        assert_eq!(listed.into_iter().collect::<BTreeSet<_>>(), met, "{}", block.name);
    }
}

#[test]
fn the_calls_are_the_headers() {
    let header = text("host/mcx11_calls.h");
    let declared = |name: &str| {
        let (_, rest) =
            header.split_once(&format!(" {name}(mcx11_t *")).unwrap_or_else(|| panic!("{name} is not there"));
        let parameters = rest.split(')').next().expect("parameters").split(", ");
        parameters.map(|one| one.rsplit([' ', '*']).next().expect("a name")).collect::<Vec<_>>().join(", ")
    };
    for block in blocks(&text("docs/FRAMES.md")) {
        let (_, calls) = block.parts["Numbers"].split_once("Call:").expect("a call");
        let calls: Vec<&str> = calls.split('`').skip(1).step_by(2).collect();
        let own = format!("mcx11_{}(", block.name.replace(' ', "_"));
        assert!(calls[0].starts_with(&own), "{}: {calls:?}", block.name);
        for call in calls {
            let (name, parameters) = call.trim_end_matches(')').split_once('(').expect("a call");
            assert_eq!(declared(name), parameters, "{call}");
        }
    }
}

#[test]
fn the_configurations_fields_are_the_headers() {
    let (page, header) = (text("docs/FRAMES.md"), text("host/mcx11.h"));
    let rows =
        page.lines().skip_while(|line| !line.starts_with("| Bytes | Holds | In `mcx11_configuration_t` |")).skip(2);
    let cells = rows.take_while(|line| line.starts_with('|')).map(|row| row.split('|').nth(3).expect("a cell").trim());
    let names: Vec<&str> = cells.map(|cell| cell.split(['`', '[', ',']).nth(1).expect("a name")).collect();
    let fields = header.split("typedef struct mcx11_configuration_t {").nth(1).and_then(|rest| rest.split('}').next());
    let field = |line: &str| line.trim().split([' ', ';', '[']).nth(1).map(str::to_string);
    let fields: Vec<String> = fields.expect("the struct").lines().filter_map(field).collect();
    assert_eq!(names, fields);
}
