//! The calls of `tests/vectors` with the answers of a third reader: number, depth, yes
//! or no, and every byte of the buffer after each call; and the stores with their pages.

use independent::inventory::inventory;
use independent::ledger::Call;
use independent::limits::Limits;
use independent::loader::{Independent, Loader};
use std::path::{Path, PathBuf};
use std::process::Command;
use std::str::SplitWhitespace;

/// What a packed file holds.
fn unpacked(path: &Path) -> String {
    let output = Command::new("gzip").arg("-dc").arg(path).output();
    let output = output.expect("gzip is at hand");
    assert!(output.status.success(), "{} cannot be read", path.display());
    String::from_utf8(output.stdout).expect("lines of text")
}

/// The words of one line.
struct Words<'a>(SplitWhitespace<'a>);

impl Words<'_> {
    fn word(&mut self) -> &str {
        self.0.next().expect("a word")
    }

    fn figure(&mut self) -> usize {
        self.word().parse().expect("a figure")
    }

    fn bytes(&mut self) -> Vec<u8> {
        let digits = self.word().trim_matches('-');
        let pairs = digits.as_bytes().chunks(2);
        let pairs = pairs.map(|pair| std::str::from_utf8(pair).unwrap());
        pairs
            .map(|pair| u8::from_str_radix(pair, 16).unwrap())
            .collect()
    }
}

/// The call of a step, or `None` where the step writes the buffer itself.
fn step(line: &str, store: &mut Vec<u8>) -> Option<Call> {
    let mut words = Words(line.split_whitespace());
    let call = match words.word() {
        "N" => {
            let (length, fill) = (words.figure(), words.bytes()[0]);
            *store = words.bytes();
            store.resize(length, fill);
            return None;
        }
        "P" => {
            let (offset, bytes) = (words.figure(), words.bytes());
            store[offset..offset + bytes.len()].copy_from_slice(&bytes);
            return None;
        }
        "F" => Call::Fresh,
        "G" => Call::FreshLimits(Limits::new(
            words.figure() as u8,
            words.figure() as u8,
            words.figure() as u16,
        )),
        "C" => Call::Create(words.bytes()),
        "K" => Call::CreateWithoutInt(words.bytes()),
        "D" => Call::Delete(words.bytes()),
        "R" => Call::Remove(words.bytes()),
        "L" => Call::Load {
            domain: words.bytes(),
            file: words.bytes(),
        },
        "Q" => Call::Query {
            domain: words.bytes(),
            package: words.bytes(),
            class: words.figure() as u8,
            name: words.figure() as u16,
        },
        other => panic!("no step {other}"),
    };
    Some(call)
}

fn hash(bytes: &[u8]) -> u64 {
    let add = |hash: u64, &byte: &u8| (hash ^ u64::from(byte)).wrapping_mul(0x100_0000_01B3);
    bytes.iter().fold(0xCBF2_9CE4_8422_2325, add)
}

/// The line that answers a call.
fn answered(number: usize, call: &Call, answer: u32, store: &[u8]) -> String {
    let figure = answer >> 8;
    let (depth, yes) = match call {
        Call::Query { .. } => (0, figure == 1),
        _ => (figure, false),
    };
    let said = if yes { "yes" } else { "no" };
    format!(
        "{number} {} {depth} {said} {:016X}",
        answer & 0xFF,
        hash(store)
    )
}

/// Runs the calls of a file: how many there are, and our answers beside others.
fn run(calls: &Path) -> (usize, Vec<(String, String)>) {
    let name = calls.to_string_lossy().replace(".calls.", ".answers.");
    let answers = unpacked(Path::new(&name));
    let mut answers = answers.lines();
    let mut store = Vec::new();
    let (mut compared, mut differences) = (0, Vec::new());
    for (index, line) in unpacked(calls).lines().enumerate() {
        if let Some(call) = step(line, &mut store) {
            let answer = Independent.call(&mut store, &call);
            let ours = answered(index + 1, &call, answer, &store);
            let theirs = answers.next().unwrap_or_default();
            if ours != theirs {
                differences.push((ours, theirs.to_string()));
            }
            compared += 1;
        }
    }
    assert_eq!(answers.next(), None, "{}", calls.display());
    (compared, differences)
}

/// The files of a folder, or its folders, in order.
fn listed(folder: &Path) -> Vec<PathBuf> {
    let entries = std::fs::read_dir(folder).expect("a folder");
    let mut paths: Vec<PathBuf> = entries.map(|entry| entry.unwrap().path()).collect();
    paths.sort();
    paths
}

#[test]
fn calls_are_answered_as_a_third_reader_answers_them() {
    let vectors = Path::new(env!("CARGO_MANIFEST_DIR")).join("../tests/vectors");
    let (mut all, mut wrong) = (0, Vec::new());
    for folder in listed(&vectors) {
        let files = listed(&folder).into_iter();
        let calls = files.filter(|path| path.to_string_lossy().ends_with(".calls.gz"));
        for path in calls {
            let (compared, differences) = run(&path);
            println!("{}: {compared} calls", path.display());
            wrong.extend(differences.into_iter().map(|pair| (path.clone(), pair)));
            all += compared;
        }
    }
    println!("{all} calls");
    assert_eq!(wrong, []);
    assert!(all > 0, "there are no calls");
}

#[test]
fn stores_have_the_pages_of_a_third_reader() {
    let folder = Path::new(env!("CARGO_MANIFEST_DIR")).join("../tests/vectors/08-request-1");
    let stores = unpacked(&folder.join("inventory.stores.gz"));
    let pages = unpacked(&folder.join("inventory.answers.gz"));
    let mut theirs = pages.split_inclusive("\n\n");
    for (index, line) in stores.lines().enumerate() {
        let store = Words(line.split_whitespace()).bytes();
        let ours = String::from_utf8(inventory(&store)).expect("text") + "\n";
        assert_eq!(Some(&ours[..]), theirs.next(), "store {index}");
    }
    assert_eq!(theirs.next(), None);
    assert_eq!(stores.lines().count(), 150);
}
