//! `cards SEED COUNT [CARD]`: line files through the simulated card, the program at
//! CARD (or in the variable CARD, or crates/card/out/card), and through the independent card.

use comparison::process;
use independent::card::run_card;
use independent::generate::files::sized_file;
use independent::generate::lines::line_file;
use independent::limits::STANDARD_CODE;
use independent::package::Version;
use std::collections::BTreeMap;
use std::io;
use std::process::{Command, ExitCode};

fn main() -> ExitCode {
    let arguments: Vec<String> = std::env::args().skip(1).collect();
    let numbers: Vec<u64> = arguments.iter().take(2).flat_map(|a| a.parse()).collect();
    let [seed, count] = numbers[..] else {
        eprintln!("usage: cards SEED COUNT [CARD]");
        return ExitCode::FAILURE;
    };
    let named = arguments.get(2).cloned();
    let card = named.or_else(|| std::env::var("CARD").ok());
    let card = card.unwrap_or_else(|| "crates/card/out/card".into());
    println!("seed {seed}, {count} line files");
    let first = seed.wrapping_mul(1_000_003);
    let generated = (0..count).map(|number| line_file(first.wrapping_add(number)));
    let mut answers = BTreeMap::new();
    let mut files = 0;
    for input in fixed().into_iter().chain(generated) {
        if differs(&card, &input) {
            println!("DIFFERENT: file {files}");
            report(&card, &input);
            return ExitCode::FAILURE;
        }
        files += 1;
        count_answers(&run_card(&input), &mut answers);
    }
    let lines: u64 = answers.values().sum();
    println!("same: {files} files, {lines} lines; by answer {answers:?}");
    ExitCode::SUCCESS
}

/// Counts the lines of an output by their answer.
fn count_answers(output: &[u8], answers: &mut BTreeMap<String, u64>) {
    for line in String::from_utf8_lossy(output).lines() {
        let answer = line.split(' ').nth(1).unwrap_or_default();
        *answers.entry(answer.into()).or_default() += 1;
    }
}

/// Files that generated ones hardly hit: none or one byte, ends of lines, a line at
/// its limit and past it, a line longer than any buffer, a card that becomes full.
fn fixed() -> Vec<Vec<u8>> {
    let mut files: Vec<Vec<u8>> = ["", "\n", "\n\n\n", "C", "C A0", "C A0000000D1\r\n"]
        .map(|text| text.as_bytes().to_vec())
        .to_vec();
    files.extend([vec![0], vec![0xFF; 3], (0..=255).collect(), vec![0; 9000]]);
    for length in [7_999, 8_000, 8_001, 8_002, 65_536, 1_000_000] {
        for end in ["", "\n", "\nC A0000000D1"] {
            let mut line = b"C ".to_vec();
            line.resize(length, b'A');
            line.extend_from_slice(end.as_bytes());
            files.push(line);
        }
    }
    for version in Version::BOTH {
        let full = [0, 1].map(|past| full_card(version, past));
        files.extend(full.map(String::into_bytes));
    }
    files
}

/// Loads that fill the card's 8,192 bytes, or would pass them by this much; then calls
/// that need room, before and after some is made.
fn full_card(version: Version, past: usize) -> String {
    let hex = |bytes: &[u8]| -> String { bytes.iter().map(|b| format!("{b:02X}")).collect() };
    // Header, the domain, and the bytes of each entry before its file.
    let rest = 8192 - 7 - 8 - 3 * 9 - 2 * 3900;
    let mut text = String::from("C A0000000D1\n");
    for (number, size) in [(1, 3900), (2, 3900), (3, rest + past)] {
        let aid = [0xA0, 0, 0, 1, number];
        let file = sized_file(version, &aid, size, STANDARD_CODE).expect("a file of this size");
        text += &format!("L A0000000D1 {}\n", hex(&file.bytes()));
    }
    text + "C A0000000D2\nR A000000102\nC A0000000D2\nR A000000103\nD A0000000D2\n"
}

/// What the program prints for this input.
fn output(card: &str, input: &[u8]) -> io::Result<Vec<u8>> {
    process::output(&mut Command::new(card), input)
}

fn differs(card: &str, input: &[u8]) -> bool {
    output(card, input).ok() != Some(run_card(input))
}

/// The lines with their ends.
fn split(input: &[u8]) -> Vec<&[u8]> {
    input.split_inclusive(|&b| b == b'\n').collect()
}

/// Leaves out lines while the outputs differ, then prints what is left.
fn report(card: &str, input: &[u8]) {
    let mut lines = split(input);
    for place in (0..lines.len()).rev() {
        let mut fewer = lines.clone();
        fewer.remove(place);
        if differs(card, &fewer.concat()) {
            lines = fewer;
        }
    }
    for line in &lines {
        let shown = &line[..line.len().min(2_000)];
        println!("{} bytes: {}", line.len(), shown.escape_ascii());
    }
    let input = lines.concat();
    let text = |bytes: &[u8]| String::from_utf8_lossy(bytes).into_owned();
    println!("independent:\n{}", text(&run_card(&input)));
    match output(card, &input) {
        Ok(printed) => println!("the card:\n{}", text(&printed)),
        Err(error) => println!("the card: {error}"),
    }
}
