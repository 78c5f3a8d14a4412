//! `bounds ARCHIVE RECURSIONS`: the most stack that each exported operation can take: with the
//! standard limits on stores to 8,192 bytes and on longer ones, then the same with larger limits; a
//! line each.
//!
//! RECURSIONS says how often functions that call themselves or each other nest at most: a line is
//! the number with the standard limits, that with larger ones, and the functions. A line `longer` or
//! `larger` tells what the names of functions have that are called for longer stores alone, or for
//! larger limits alone. `#` begins a comment.

use comparison::frames::{Calls, Frames, Recursion};
use independent::ledger::Call;
use std::process::ExitCode;

/// The words of each line.
fn lines(text: &str) -> impl Iterator<Item = Vec<&str>> {
    let lines = text
        .lines()
        .map(|line| line.split('#').next().unwrap_or(""));
    lines.map(|line| line.split_whitespace().collect())
}

fn recursions(text: &str) -> Vec<Recursion> {
    lines(text)
        .filter_map(|words| {
            let [standard, larger, members @ ..] = &words[..] else {
                return None;
            };
            Some(Recursion {
                most: [standard.parse().ok()?, larger.parse().ok()?],
                members: members.iter().map(ToString::to_string).collect(),
            })
        })
        .collect()
}

/// What stands on the lines of this name.
fn parts<'a>(text: &'a str, name: &str) -> Vec<&'a str> {
    let named = lines(text).filter(|words| words.first() == Some(&name));
    named.flat_map(|words| words[1..].to_vec()).collect()
}

fn run() -> Result<(), String> {
    let arguments: Vec<String> = std::env::args().skip(1).collect();
    let [archive, file] = &arguments[..] else {
        return Err("usage: bounds ARCHIVE RECURSIONS".into());
    };
    let text = std::fs::read_to_string(file).map_err(|error| format!("{file}: {error}"))?;
    let frames = Frames::read(archive, recursions(&text))?;
    let (for_longer, for_larger) = (parts(&text, "longer"), parts(&text, "larger"));
    let bound = |name: &str, larger: bool, longer: bool| {
        let has = |callee: &str, parts: &[&str]| parts.iter().any(|part| callee.contains(part));
        let left_out = |callee: &str| {
            (!longer && has(callee, &for_longer)) || (!larger && has(callee, &for_larger))
        };
        let left_out = &left_out;
        frames.bound(name, &Calls { larger, left_out })
    };
    for operation in Call::OPERATIONS {
        let name = format!("loader_{operation}");
        if !frames.has(&name) {
            return Err(format!("there is no {name} in {archive}"));
        }
        let columns = [(false, false), (false, true), (true, false), (true, true)];
        let figures = columns.map(|(larger, longer)| bound(&name, larger, longer).to_string());
        println!("{name} {}", figures.join(" "));
    }
    Ok(())
}

fn main() -> ExitCode {
    match run() {
        Ok(()) => ExitCode::SUCCESS,
        Err(error) => {
            eprintln!("bounds: {error}");
            ExitCode::FAILURE
        }
    }
}
