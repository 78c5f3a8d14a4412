//! A short sequence that shows a difference, in hex.

use crate::guarded::OUTSIDE;
use independent::ledger::Call;
use independent::loader::{compare, shrink, Independent, Loader, Sequence, Step};

/// Prints where the library differs on this sequence, after leaving out what is not needed.
pub fn report(library: &dyn Loader, sequence: &Sequence) {
    let differs = |s: &Sequence| compare(&Independent, library, s).is_some();
    let mut sequence = shrink(sequence, differs);
    let mut plain = sequence.clone();
    plain.start.fill(0);
    if differs(&plain) {
        sequence = plain;
    }
    let Some(found) = compare(&Independent, library, &sequence) else {
        println!("the difference does not show again: an answer hangs on more than the call");
        return;
    };
    println!("buffer {}", described(&sequence.start));
    for (number, step) in sequence.steps.iter().enumerate() {
        println!("step {number}: {}", line(step));
    }
    let (ours, theirs) = (answer(found.ours), answer(found.theirs));
    println!(
        "at step {}: independent {ours}, library {theirs}",
        found.step
    );
    if let Some(place) = found.place {
        println!("the stores differ first at byte {place}");
    }
}

fn answer(answer: u32) -> String {
    match answer {
        OUTSIDE => "wrote outside the store".into(),
        _ => format!("number {} figure {}", answer & 0xFF, answer >> 8),
    }
}

fn line(step: &Step) -> String {
    match step {
        Step::Damage { place, bits } => format!("damage byte {place}, bits {bits:02X}"),
        Step::Call(Call::Fresh) => "fresh".into(),
        Step::Call(Call::FreshLimits(limits)) => format!("fresh {limits:?}"),
        Step::Call(Call::Create(domain)) => format!("create {}", described(domain)),
        Step::Call(Call::CreateWithoutInt(domain)) => {
            format!("create without int {}", described(domain))
        }
        Step::Call(Call::Delete(domain)) => format!("delete {}", described(domain)),
        Step::Call(Call::Load { domain, file }) => {
            format!("load {} {}", described(domain), described(file))
        }
        Step::Call(Call::Remove(package)) => format!("remove {}", described(package)),
        Step::Call(Call::Query {
            domain,
            package,
            class,
            name,
        }) => {
            let (domain, package) = (described(domain), described(package));
            format!("query {domain} {package} {class:02X} {name:04X}")
        }
    }
}

/// The bytes in hex; a long run of one byte at the end is told by its length.
pub fn described(bytes: &[u8]) -> String {
    let Some(&last) = bytes.last() else {
        return "(0 bytes)".into();
    };
    let run = bytes.iter().rev().take_while(|&&b| b == last).count();
    if run < 20 {
        return hex(bytes);
    }
    let before = hex(&bytes[..bytes.len() - run]);
    format!("{before}({run} bytes {last:02X})")
}

fn hex(bytes: &[u8]) -> String {
    bytes.iter().map(|byte| format!("{byte:02X}")).collect()
}
