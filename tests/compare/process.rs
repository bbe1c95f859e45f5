//! A program run on an input.

use std::io::{ErrorKind, Write};
use std::process::{Command, Stdio};
use std::thread;

/// What a program prints for an input that it gets in pieces of a size. A program that does not
/// end well, or that says anything on standard error, has printed nothing worth comparing.
pub fn output(program: &str, arguments: &[&str], input: &[u8], piece: usize) -> Vec<u8> {
    let mut child = Command::new(program)
        .args(arguments)
        .stdin(Stdio::piped())
        .stdout(Stdio::piped())
        .stderr(Stdio::piped())
        .spawn()
        .unwrap_or_else(|error| panic!("{program}: {error}"));
    let mut stdin = child.stdin.take().expect("piped");
    let output = thread::scope(|scope| {
        // written from beside, so that neither side waits for the other to read
        scope.spawn(move || {
            for part in input.chunks(piece.max(1)) {
                match stdin.write_all(part) {
                    // a program that stops reading shows in what it printed
                    Err(error) if error.kind() == ErrorKind::BrokenPipe => return,
                    written => written.expect("the input is written"),
                }
            }
        });
        child.wait_with_output().expect("the program is read")
    });
    if !output.status.success() || !output.stderr.is_empty() {
        let said = String::from_utf8_lossy(&output.stderr).into_owned();
        return format!("{program}: {}, {said:?}\n", output.status).into_bytes();
    }
    output.stdout
}
