//! Both sides against inputs with right answers.
//!
//! The inputs, with endings `.in` and `.out`, are in the folder that
//! HOLLGRIMSA_VECTORS names; without it they are skipped. level-05 is of
//! document 01 with. A request that changes what an older input
//! prints leaves that input out here, as did with those before.

mod plain;
mod replay;
mod sides;

use std::path::{Path, PathBuf};
use std::{env, fs};

use replay::{replay, Calls};
use sides::{Core, Plain};

#[test]
fn core_agrees_with_level_05() {
    compare("core", &Core, "level-05");
}

#[test]
fn plain_agrees_with_level_05() {
    compare("plain", &Plain, "level-05");
}

/// The lines `F n` and `% n`: the edited bulletin of the case's text and the
/// book, and another text for the same case.
#[test]
fn edited_example_agrees() {
    let input = b"2002 04\n00044\nFPUS51 KXYZ 240822\nZFPXYZ\nMDC001-242100-\n$$\n\
        F 44\nF 43\nF 50\nF 20000\nF 20001\nF\n\
        % 55\nFPUS51 KXYZ 240822\nZFPXYZ\nMDC005-003-\n242100-\r\nTEXT\n$$\nF 60\n\
        % 44\nFPUS51 KXYZ 240823\nZFPXYZ\nMDC001-242100-\n$$\nF 0\n\
        % 3\nABCF 20000\n% 100000\nF 1\n% 0\nF 1\nE\nL 5\nF 1\n% 9\n12345678";
    let output = "K\nF 44 50337\nR 23 0\nF 44 75987\nF 44 820992073\n?\n?\n\
        !\nF 49 119804\n!\nR 27 0\n!\nR 2 3\n?\nR 2 3\n!\nR 1 0\nR 1 0\n!\nR 1 0\n?\n";
    assert_eq!(replay(&Plain, input), output);
    assert_eq!(replay(&Core, input), output);
}

#[test]
fn listing_example_agrees() {
    let input = b"2002 04\nFPUS51 KXYZ 240822\nZFPXYZ\n\nZONE FORECAST\n\
        NATIONAL WEATHER SERVICE ANYTOWN MD\n\nMDC005-003-006>007-242100-\nTEXT ONE\n$$\n\
        VAZ053-250000-\nTEXT TWO\n$$\n";
    let output = "H FPUS51 KXYZ 240822 - ZFPXYZ -\nS 1 16994700 4 MDC003-005>007-242100-\n\
        S 2 16994880 1 VAZ053-250000-\n";
    assert_eq!(plain::listing_of_input(input), output);
    assert_eq!(Core.listing(&input[8..], 2002, 4), output);
    assert_eq!(plain::listing_of_input(b"2002 4\n"), "R 24 0\n");
}

/// Replays one input and compares every line with its right answer.
fn compare(side: &str, calls: &impl Calls, name: &str) {
    let Some(folder) = env::var_os("HOLLGRIMSA_VECTORS").map(PathBuf::from) else {
        println!("{side}, {name}: skipped, HOLLGRIMSA_VECTORS names no folder");
        return;
    };
    let printed = replay(calls, &read(&folder, name, "in"));
    let right = read(&folder, name, "out");
    let lines = printed
        .as_bytes()
        .split(|&b| b == b'\n')
        .zip(right.split(|&b| b == b'\n'));
    for (number, (printed, right)) in (1..).zip(lines) {
        let shown = String::from_utf8_lossy;
        assert!(
            printed == right,
            "{side}, {name} line {number}\n{}\n{}",
            shown(printed),
            shown(right)
        );
    }
    assert!(printed.as_bytes() == right, "{name}: one output is longer");
    println!("{side}, {name}: {} lines agree", printed.lines().count());
}

fn read(folder: &Path, name: &str, ending: &str) -> Vec<u8> {
    fs::read(folder.join(format!("{name}.{ending}"))).unwrap()
}
