//! The programs, run as a user runs them.
#![allow(dead_code)] // no file of tests uses all of this
use std::io::Write;
use std::path::{Path, PathBuf};
use std::process::{Command, Output, Stdio};
use std::thread;

/// A path from the repository's root.
pub fn from_root(path: &str) -> PathBuf {
    Path::new(env!("CARGO_MANIFEST_DIR"))
        .join("../..")
        .join(path)
}

/// A program of this name, which was proved and built before.
pub fn built(name: &str) -> Command {
    let path = from_root("target/bin").join(name);
    assert!(
        path.exists(),
        "target/bin/{name} is missing: make it with `./{name}` at the root of the repository"
    );
    Command::new(path)
}

/// What a program says to an input.
pub fn run(program: &mut Command, input: &[u8]) -> Output {
    let mut child = program
        .stdin(Stdio::piped())
        .stdout(Stdio::piped())
        .stderr(Stdio::piped())
        .spawn()
        .expect("the program runs");
    let mut pipe = child.stdin.take().expect("its standard input");
    let input = input.to_vec();
    let feeder = thread::spawn(move || {
        _ = pipe.write_all(&input); // the program need not read all of a long input
    });
    let output = child.wait_with_output().expect("its output");
    feeder.join().expect("the input is handed over");
    output
}

/// What the session program prints for an input. It always ends well.
pub fn program(input: &[u8]) -> Vec<u8> {
    let output = run(&mut built("readings"), input);
    assert!(output.status.success(), "it ends with {}", output.status);
    output.stdout
}
