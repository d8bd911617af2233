//! For tests: programs that a test starts, what it feeds them and what they leave.

use std::io::Write;
use std::process::{Command, Output, Stdio};
use std::thread;

/// What a program leaves that has this on standard input.
pub fn output(command: &mut Command, input: &[u8]) -> Output {
    command.stdin(Stdio::piped()).stdout(Stdio::piped());
    let child = command.stderr(Stdio::piped()).spawn();
    let mut child = child.expect("the program starts");
    let mut stdin = child.stdin.take().expect("standard input is a pipe");
    thread::scope(|scope| {
        // It may write before it has read everything, and end before that too.
        scope.spawn(move || stdin.write_all(input));
        child.wait_with_output().expect("the program ends")
    })
}

/// What it writes, which is text; it must succeed.
pub fn written(command: &mut Command, input: &[u8]) -> String {
    let output = output(command, input);
    let said = String::from_utf8_lossy(&output.stderr);
    assert!(output.status.success(), "{command:?}\n{said}");
    String::from_utf8(output.stdout).expect("text")
}

#[cfg(test)]
mod tests {
    use super::*;

    /// More than the pipes hold, both ways.
    #[test]
    fn a_long_text() {
        let text = "text\n".repeat(100_000);
        assert_eq!(written(&mut Command::new("cat"), text.as_bytes()), text);
    }

    /// Input that is not read is no error.
    #[test]
    fn a_program_that_reads_nothing() {
        let input = vec![0; 1_000_000];
        assert_eq!(written(&mut Command::new("true"), &input), "");
        let left = output(&mut Command::new("false"), &input);
        assert_eq!(left.status.code(), Some(1));
    }
}
