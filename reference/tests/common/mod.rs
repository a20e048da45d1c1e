//! The programs of the crates, run for the tests.

use std::io::Write;
use std::path::PathBuf;
use std::process::{Command, Stdio};

/// What the program `name` prints for `input`, of which it reads no more than
/// `most` bytes; a longer one may find the pipe closed.
pub fn printed(name: &str, input: &[u8], most: usize) -> String {
    let programs = PathBuf::from(env!("CARGO_MANIFEST_DIR")).join("../target/bin");
    let mut child = Command::new(programs.join(name))
        .stdin(Stdio::piped())
        .stdout(Stdio::piped())
        .spawn()
        .unwrap_or_else(|_| {
            panic!("target/bin/{name} is built by: ./build bin/{name} check {name}")
        });
    let mut stdin = child.stdin.take().expect("piped");
    let sent = stdin.write_all(input);
    assert!(sent.is_ok() || input.len() > most);
    drop(stdin);
    let output = child.wait_with_output().expect("ends");
    assert!(output.status.success());
    String::from_utf8(output.stdout).expect("text")
}
