//! host/mcx11.h: what a host asks beside its frames, with a list of its own structs: the busiest stretch of its records, and a free start
//! beside its cyclic timers. Each language of the header has the archive's layout of both structs.

mod tools;

use c::caller::Caller;
use std::process::Command;
use tools::{built, languages, of_caller, printed, repository, run, scratch, text};

/// What tests/c/busiest.c prints: of six records with 2, 5, 1, 4, 3 and 0 reissues, where 2 + 5 and 4 + 3 are the same, and of the last
/// four; of no record; of many with 65,535 each.
const BUSIEST: &str = "8 bytes: 0, 4, 6
0 of 6 few: stretch, 77 at 88
1 of 6 few: accepted, 5 at 1
2 of 6 few: accepted, 7 at 0
3 of 6 few: accepted, 10 at 1
4 of 6 few: accepted, 13 at 1
5 of 6 few: accepted, 15 at 0
6 of 6 few: accepted, 15 at 0
7 of 6 few: stretch, 77 at 88
2 of 4 few: accepted, 7 at 1
4294967295 of 6 few: stretch, 77 at 88
0 of 0 none: stretch, 77 at 88
1 of 0 none: stretch, 77 at 88
4096 of 4096 many: accepted, 268431360 at 0
1 of 4096 many: accepted, 65535 at 0
1 of 4097 many: stretch, 77 at 88
";

/// What tests/c/starts.c prints, by the names of its lists: none; four, two timers with period 4, started in 0 and 1; checks, with 6 in 0,
/// 10 in 2 and 10 in 3; late, with 3 in the largest tock that has 32 bits, a multiple of 3: the first signal is past it; nine, with 9 in
/// 0 to 8; doubled, with 2, 4 and so on to 256, which leave one start of 256; longest, two with 32,768, one with 32,769 and one with 0.
const STARTS: &str = "8 bytes: 0, 4
every 0 beside 0 of none: cycles, 77
every 1 beside 0 of none: accepted, 0
every 2 beside 0 of none: accepted, 0
every 3 beside 0 of none: accepted, 0
every 32768 beside 0 of none: accepted, 0
every 32769 beside 0 of none: cycles, 77
every 4294967295 beside 0 of none: cycles, 77
every 1 beside 1 of four: no start, 77
every 2 beside 1 of four: accepted, 1
every 3 beside 1 of four: no start, 77
every 4 beside 1 of four: accepted, 1
every 5 beside 1 of four: no start, 77
every 6 beside 1 of four: accepted, 1
every 6 beside 2 of four: no start, 77
every 4 beside 2 of four: accepted, 2
every 4 beside 2 of checks: accepted, 1
every 4 beside 3 of checks: no start, 77
every 30 beside 3 of checks: accepted, 1
every 5 beside 2 of checks: accepted, 0
every 3 beside 1 of late: accepted, 1
every 32766 beside 1 of late: accepted, 1
every 9 beside 8 of nine: accepted, 8
every 8 beside 8 of nine: no start, 77
every 9 beside 9 of nine: cycles, 77
every 9 beside 4294967295 of nine: cycles, 77
every 18 beside 8 of nine: accepted, 0
every 256 beside 8 of doubled: accepted, 255
every 32768 beside 8 of doubled: accepted, 255
every 128 beside 8 of doubled: no start, 77
every 32768 beside 2 of longest: accepted, 2
every 5 beside 3 of longest: cycles, 77
every 5 beside 1 of longest: cycles, 77
";

/// As a host of the controller and as one of the module: the calls are one for both.
fn every_language_prints(source: &str, due: &str) {
    let folder = scratch(source);
    for (language, caller) in languages().flat_map(|language| Caller::ALL.map(|caller| (language, caller))) {
        let program = built(&folder, source, language, of_caller(caller));
        assert_eq!(printed(&mut Command::new(&program), b""), due, "{language:?} {caller:?}");
    }
}

#[test]
fn every_language_asks_for_the_busiest_stretch() {
    every_language_prints("busiest.c", BUSIEST);
}

#[test]
fn every_language_asks_for_a_free_start() {
    every_language_prints("starts.c", STARTS);
}

/// Also where structs are packed. Without its pragma the header is refused there: the check of the layout can fail.
#[test]
fn the_structs_have_the_archives_layout_or_the_header_is_refused() {
    let header = text("host/mcx11.h");
    let without: String =
        header.lines().filter(|line| !line.starts_with("#pragma")).map(|line| format!("{line}\n")).collect();
    for (compiler, language) in languages() {
        let tried = |header: &str, told: &str| {
            let mut compile = Command::new(compiler);
            compile.args(language).args([told, "-fsyntax-only", "-I"]).arg(repository().join("host")).arg("-");
            run(&mut compile, header.as_bytes())
        };
        assert!(tried(&without, "-Wall").status.success(), "{compiler} {language:?}");
        for told in ["-Wall", "-fpack-struct=1", "-fpack-struct=2"] {
            let output = tried(&header, told);
            assert!(output.status.success(), "{compiler} {told}: {}", String::from_utf8_lossy(&output.stderr));
        }
        for packed in ["-fpack-struct=1", "-fpack-struct=2"] {
            let output = tried(&without, packed);
            let errors = String::from_utf8_lossy(&output.stderr);
            for layout in ["mcx11_record_layout", "mcx11_cycle_layout"] {
                assert!(!output.status.success() && errors.contains(layout), "{compiler} {packed}: {errors}");
            }
        }
    }
}
