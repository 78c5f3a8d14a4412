//! A program run as a process of its own, by pipes.

use std::io::{self, Read, Write};
use std::process::{Child, Command, Stdio};

/// What the program writes for this input; an error where it ends with another status than 0
/// or says something on standard error. It need not read all.
pub fn output(command: &mut Command, input: &[u8]) -> io::Result<Vec<u8>> {
    let mut child = command
        .stdin(Stdio::piped())
        .stdout(Stdio::piped())
        .stderr(Stdio::piped())
        .spawn()?;
    let (written, said) = exchange(&mut child, input)?;
    let status = child.wait()?;
    match status.success() && said.is_empty() {
        true => Ok(written),
        false => {
            let said = said.escape_ascii();
            Err(io::Error::other(format!("it ended with {status}: {said}")))
        }
    }
}

/// Writes the input while both outputs are read, so that no pipe stays full.
fn exchange(child: &mut Child, input: &[u8]) -> io::Result<(Vec<u8>, Vec<u8>)> {
    let missing = || io::Error::from(io::ErrorKind::BrokenPipe);
    let mut stdin = child.stdin.take().ok_or_else(missing)?;
    let mut stdout = child.stdout.take().ok_or_else(missing)?;
    let mut stderr = child.stderr.take().ok_or_else(missing)?;
    let (mut written, mut said) = (Vec::new(), Vec::new());
    std::thread::scope(|scope| {
        // A program that ends early shows by what it has written.
        scope.spawn(move || stdin.write_all(input));
        let saying = scope.spawn(|| stderr.read_to_end(&mut said));
        stdout.read_to_end(&mut written)?;
        saying.join().map_err(|_| missing())?
    })?;
    Ok((written, said))
}
