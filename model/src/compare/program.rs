//! Running the other program on a script.

use std::io::{self, Read, Write};
use std::path::PathBuf;
use std::process::{Command, Stdio};
use std::thread;

pub struct Program {
    pub path: PathBuf,
}

/// What a program printed, and whether it ended well.
pub struct Ended {
    pub printed: Vec<u8>,
    pub well: bool,
}

impl Program {
    /// One process for one script. An error means that the program could not be run at all.
    pub fn run(&self, script: &[u8]) -> io::Result<Ended> {
        let mut child = Command::new(&self.path)
            .stdin(Stdio::piped())
            .stdout(Stdio::piped())
            .stderr(Stdio::null())
            .spawn()?;
        let mut stdin = child.stdin.take().expect("its input is a pipe");
        let mut stdout = child.stdout.take().expect("its output is a pipe");
        let mut printed = vec![];
        // Fed beside the reading, or two full pipes would wait for each other.
        let read = thread::scope(|scope| {
            scope.spawn(move || {
                // A program that ends early breaks the pipe; its output tells then.
                let _ = stdin.write_all(script);
            });
            stdout.read_to_end(&mut printed)
        });
        read?;
        Ok(Ended { printed, well: child.wait()?.success() })
    }
}
