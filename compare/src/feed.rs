//! Feeds a program: one process for each input.
use std::io::{Read, Write};
use std::path::PathBuf;
use std::process::{Command, Stdio};
use std::sync::mpsc::channel;
use std::thread;
use std::time::Duration;

/// A program that reads standard input and prints.
pub struct Program {
    pub path: PathBuf,
    /// A command that runs the program, such as an emulator.
    pub through: Option<PathBuf>,
    /// Words that the program gets.
    pub words: Vec<String>,
    /// How long one input may take.
    pub patience: Duration,
}

/// What a program did with an input.
#[derive(Clone, Debug, PartialEq, Eq)]
pub enum Deed {
    /// It ended well and printed this.
    Printed(Vec<u8>),
    /// It ended with another status than 0, or by a signal.
    Failed(String),
    /// It did not end in time.
    Late,
}

impl Program {
    /// The command that starts it.
    fn command(&self) -> Command {
        let mut command = match &self.through {
            Some(through) => {
                let mut command = Command::new(through);
                command.arg(&self.path);
                command
            }
            None => Command::new(&self.path),
        };
        command.args(&self.words).stdin(Stdio::piped()).stdout(Stdio::piped());
        command
    }

    /// Gives the program one input. Fails only if it cannot be started.
    pub fn feed(&self, input: &[u8]) -> std::io::Result<Deed> {
        let mut child = self.command().spawn()?;
        let mut to = child.stdin.take().expect("a pipe");
        let mut from = child.stdout.take().expect("a pipe");
        let input = input.to_vec();
        // a program may end before it has read everything
        thread::spawn(move || drop(to.write_all(&input)));
        let (send, receive) = channel();
        thread::spawn(move || {
            let mut printed = Vec::new();
            let _ = from.read_to_end(&mut printed);
            let _ = send.send(printed);
        });
        let printed = receive.recv_timeout(self.patience);
        if printed.is_err() {
            child.kill()?;
        }
        let status = child.wait()?;
        Ok(match printed {
            Err(_) => Deed::Late,
            Ok(_) if !status.success() => Deed::Failed(status.to_string()),
            Ok(printed) => Deed::Printed(printed),
        })
    }
}
