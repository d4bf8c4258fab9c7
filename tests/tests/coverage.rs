//! The random sessions reach every named situation.

use plain_executive::coverage::Coverage;
use plain_executive::generator::{largest, prepared, Generator};
use plain_executive::limits::Limits;

const SESSIONS: u64 = 2000;
const FRAMES: usize = 250;

#[test]
fn every_situation_is_reached() {
    let mut coverage = Coverage::new();
    prepared().iter().for_each(|script| coverage.watch_script(script));
    coverage.watch_configuration(&largest(Limits::MODULE));
    for seed in 0..SESSIONS {
        let mut generator = Generator::new(seed);
        let tasks = match seed % 10 {
            0 => 1..=1,
            1 => 126..=126,
            2..=5 => 2..=5,
            _ => 2..=20,
        };
        coverage.watch_script(&generator.script(tasks, FRAMES));
        coverage.watch_configuration(&generator.refused_configuration());
        coverage.watch_configuration(&generator.configuration_above_module());
        coverage.watch_configuration(&Generator::within(Limits::MODULE, seed).script(1..=16, 0).configuration);
        coverage.watch_input(&generator.input(20));
    }
    println!("{}", coverage.table());
    let missing = coverage.missing();
    assert!(missing.is_empty(), "not reached: {missing:#?}");
}
