//! Prints a random session as lines. Arguments: seed, number of frames, most tasks (20 if not given).

use std::io::Write;

use plain_executive::generator::Generator;

fn main() -> std::io::Result<()> {
    let numbers: Vec<u64> = std::env::args().skip(1).filter_map(|argument| argument.parse().ok()).collect();
    let (&[seed, frames] | &[seed, frames, _]) = numbers.as_slice() else {
        eprintln!("usage: sessions SEED FRAMES [TASKS]");
        std::process::exit(2);
    };
    let tasks = numbers.get(2).map_or(20, |&most| most.clamp(1, 126) as u8);
    let script = Generator::new(seed).script(1..=tasks, frames as usize);
    std::io::stdout().write_all(&script.lines())
}
