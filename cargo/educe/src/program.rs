//! The program `educe`: where it is, what it answers, and what to do if it doesn't.

use std::{
    env,
    ffi::OsString,
    fmt,
    io::{self, PipeReader, PipeWriter, Write},
    process::{Child, Command, ExitStatus, Output, Stdio},
    thread,
};

/// How to get a program that answers.
const ADVICE: &str = "install `educe` on the search path, or set the variable EDUCE to its path";

/// The program that expands definitions.
pub struct Program {
    name: OsString,
}

/// What the program answers.
#[derive(Debug, PartialEq, Eq)]
pub enum Answer {
    /// The text of the impls.
    Items(String),
    /// The message of a rejection.
    Rejected(String),
}

/// Why there is no answer.
#[derive(Debug)]
pub enum Failure {
    NotStarted(io::Error),
    NotRead(io::Error),
    UnknownCommand,
    /// A signal, or a status that is no answer; and what was written to standard error.
    Ended(ExitStatus, String),
    NoItems,
    NoText,
    NoTokens(String),
}

impl Program {
    /// The program that the variable `EDUCE` names, else `educe` on the search path.
    pub fn find() -> Self {
        let named = env::var_os("EDUCE").filter(|name| !name.is_empty());
        Program {
            name: named.unwrap_or_else(|| OsString::from("educe")),
        }
    }

    /// Runs the program on a definition.
    pub fn expand(&self, definition: &str) -> Result<Answer, Failure> {
        let (input, writer) = io::pipe().map_err(Failure::NotStarted)?;
        let unread = input.try_clone().map_err(Failure::NotStarted)?;
        let child = self.start(input).map_err(Failure::NotStarted)?;
        answer(talk(child, definition, writer, unread).map_err(Failure::NotRead)?)
    }

    fn start(&self, input: PipeReader) -> io::Result<Child> {
        Command::new(&self.name)
            .arg("expand")
            .stdin(input)
            .stdout(Stdio::piped())
            .stderr(Stdio::piped())
            .spawn()
    }

    /// Names the program, and says what failed and what to do.
    pub fn explain(&self, failure: &Failure) -> String {
        format!(
            "the program `{}` {failure}; {ADVICE}",
            self.name.to_string_lossy()
        )
    }
}

/// Writes the definition while the output is read. What a program leaves unread when it ends is read here: the compiler
/// would be killed by a signal if it wrote to a pipe that nobody reads.
fn talk(
    child: Child,
    definition: &str,
    mut writer: PipeWriter,
    mut unread: PipeReader,
) -> io::Result<Output> {
    thread::scope(|scope| {
        scope.spawn(move || writer.write_all(definition.as_bytes()));
        let output = child.wait_with_output();
        io::copy(&mut unread, &mut io::sink())?;
        output
    })
}

/// What the status and the output mean.
fn answer(output: Output) -> Result<Answer, Failure> {
    let message = || {
        String::from_utf8_lossy(&output.stderr)
            .trim_end()
            .to_owned()
    };
    match output.status.code() {
        Some(0) => items(output.stdout).map(Answer::Items),
        Some(1) if !output.stderr.is_empty() => Ok(Answer::Rejected(message())),
        Some(2) => Err(Failure::UnknownCommand),
        _ => Err(Failure::Ended(output.status, message())),
    }
}

fn items(bytes: Vec<u8>) -> Result<String, Failure> {
    let text = String::from_utf8(bytes).map_err(|_| Failure::NoText)?;
    if text.trim().is_empty() {
        return Err(Failure::NoItems);
    }
    Ok(text)
}

impl fmt::Display for Failure {
    fn fmt(&self, f: &mut fmt::Formatter<'_>) -> fmt::Result {
        match self {
            Failure::NotStarted(error) if error.kind() == io::ErrorKind::NotFound => {
                f.write_str("was not found")
            }
            Failure::NotStarted(error) => write!(f, "could not be started: {error}"),
            Failure::NotRead(error) => write!(f, "could not be read: {error}"),
            Failure::UnknownCommand => {
                f.write_str("does not know the command `expand`: it is another program")
            }
            Failure::Ended(status, message) if message.is_empty() => {
                write!(f, "ended with {status}")
            }
            Failure::Ended(status, message) => write!(f, "ended with {status}: {message}"),
            Failure::NoItems => f.write_str("printed no items"),
            Failure::NoText => f.write_str("printed bytes that are not UTF-8"),
            Failure::NoTokens(error) => write!(f, "printed what are no Rust tokens: {error}"),
        }
    }
}

#[cfg(all(test, unix))]
mod tests {
    use super::*;
    use std::os::unix::process::ExitStatusExt;

    /// What a program answers by a raw status of `wait`.
    fn answered(raw: i32, stdout: &[u8], stderr: &str) -> Result<Answer, Failure> {
        let status = ExitStatus::from_raw(raw);
        answer(Output {
            status,
            stdout: stdout.to_vec(),
            stderr: stderr.as_bytes().to_vec(),
        })
    }

    fn failed(raw: i32, stdout: &[u8], stderr: &str) -> String {
        answered(raw, stdout, stderr)
            .expect_err("no answer")
            .to_string()
    }

    #[test]
    fn items_and_rejections_are_answers() {
        assert_eq!(
            answered(0, b"impl A for B { }\n", "").unwrap(),
            Answer::Items("impl A for B { }\n".to_owned())
        );
        assert_eq!(
            answered(1 << 8, b"", "1:2: a\n  b\n").unwrap(),
            Answer::Rejected("1:2: a\n  b".to_owned())
        );
    }

    #[test]
    fn all_else_is_a_failure() {
        assert_eq!(failed(0, b" \n", ""), "printed no items");
        assert_eq!(failed(0, b"\xff", ""), "printed bytes that are not UTF-8");
        assert_eq!(failed(1 << 8, b"", ""), "ended with exit status: 1");
        assert_eq!(
            failed(2 << 8, b"", "usage"),
            "does not know the command `expand`: it is another program"
        );
        assert_eq!(
            failed(5 << 8, b"", "too long\n"),
            "ended with exit status: 5: too long"
        );
        assert_eq!(failed(9, b"", ""), "ended with signal: 9 (SIGKILL)");
    }

    #[test]
    fn a_missing_program_is_named() {
        let program = Program {
            name: OsString::from("/no/such/educe"),
        };
        let failure = program.expand("struct S;").expect_err("no program");
        assert_eq!(
            program.explain(&failure),
            format!("the program `/no/such/educe` was not found; {ADVICE}")
        );
    }
}
