//! The other side of a comparison: a program that reads a script and prints what panel_rows or panel_list prints.

use crate::drawing::{run, Form};
use crate::model::Model;
use std::io::{ErrorKind, Write};
use std::process::{Command, Output, Stdio};

pub enum Program {
    /// The words of a command.
    Command(Vec<String>),
    /// The model in this crate.
    Model,
}

impl Program {
    pub fn output(&self, script: &[u8], form: Form) -> Result<Vec<u8>, String> {
        match self {
            Program::Model => Ok(run(&mut Model::default(), script, form)),
            Program::Command(words) => printed(words, script),
        }
    }
}

/// What a command prints that reads its input to the end.
pub fn printed(words: &[String], input: &[u8]) -> Result<Vec<u8>, String> {
    let (output, rest) = run_command(words, input, Stdio::inherit())?;
    match rest {
        Rest::Read => Ok(output.stdout),
        Rest::Unread => Err("the input is not read to its end".into()),
    }
}

/// What a command prints that may leave a rest of its input unread.
pub fn printed_at_once(words: &[String], input: &[u8]) -> Result<Vec<u8>, String> {
    run_command(words, input, Stdio::inherit()).map(|(output, _)| output.stdout)
}

/// What a command that reads its input to the end prints on standard output and on standard error.
pub fn printed_and_told(words: &[String], input: &[u8]) -> Result<(Vec<u8>, Vec<u8>), String> {
    let (output, rest) = run_command(words, input, Stdio::piped())?;
    match rest {
        Rest::Read => Ok((output.stdout, output.stderr)),
        Rest::Unread => Err("the input is not read to its end".into()),
    }
}

/// Whether the command read its input to the end.
enum Rest {
    Read,
    Unread,
}

fn run_command(words: &[String], input: &[u8], stderr: Stdio) -> Result<(Output, Rest), String> {
    let [program, arguments @ ..] = words else { return Err("no program is named".into()) };
    let mut child = Command::new(program)
        .args(arguments)
        .stdin(Stdio::piped())
        .stdout(Stdio::piped())
        .stderr(stderr)
        .spawn()
        .map_err(|error| format!("{program} does not start: {error}"))?;
    let mut stdin = child.stdin.take().expect("standard input is a pipe");
    let input = input.to_vec();
    // A thread of its own, because a full output pipe would stop the program from reading on.
    let writer = std::thread::spawn(move || stdin.write_all(&input));
    let output = child.wait_with_output().map_err(|error| error.to_string())?;
    let rest = match writer.join().expect("the writer does not panic") {
        Ok(()) => Rest::Read,
        Err(error) if error.kind() == ErrorKind::BrokenPipe => Rest::Unread,
        Err(error) => return Err(format!("the input cannot be written: {error}")),
    };
    if !output.status.success() {
        return Err(format!("the program ends with {}", output.status));
    }
    Ok((output, rest))
}
