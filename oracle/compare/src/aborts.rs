//! The Rust aborts where it cannot reserve memory for a count. Some of the files that are held back from it for that
//! reason are handed to a child process whose memory is capped, to see that it does.

use crate::report::{hex, Report};
use oracle::original::RESERVED_LIMIT;
use std::fmt;
use std::io::{ErrorKind, Read, Write};
use std::os::unix::process::ExitStatusExt;
use std::process::{Command, ExitStatus, Stdio};

const ASKED: usize = 40;
const SIGABRT: i32 = 6;

/// The word by which the program is started as such a child.
pub const CHILD: &str = "--child";

#[derive(Default)]
pub struct Aborts {
    asked: usize,
    aborted: usize,
}

impl fmt::Display for Aborts {
    fn fmt(&self, f: &mut fmt::Formatter) -> fmt::Result {
        write!(f, "of the first {} the Rust aborted on {}", self.asked, self.aborted)
    }
}

/// Reads a file from standard input and has the Rust read it.
pub fn child() {
    let mut file = vec![];
    std::io::stdin().read_to_end(&mut file).expect("standard input can be read");
    let _ = vtil_parser::Routine::from_vec(&file);
}

fn status_of_child(file: &[u8]) -> std::io::Result<ExitStatus> {
    let program = std::env::current_exe()?;
    let mut child = Command::new("sh")
        .arg("-c")
        .arg(format!("ulimit -c 0; ulimit -v {}; exec \"$0\" {CHILD}", RESERVED_LIMIT >> 10))
        .arg(program)
        .stdin(Stdio::piped())
        .stderr(Stdio::null())
        .spawn()?;
    let given = child.stdin.take().expect("standard input is piped").write_all(file);
    match given {
        // The child ended before it read all of it: its status says how.
        Err(error) if error.kind() == ErrorKind::BrokenPipe => {}
        given => given?,
    }
    child.wait()
}

impl Aborts {
    pub fn ask(&mut self, file: &[u8], report: &mut Report) {
        if self.asked == ASKED {
            return;
        }
        self.asked += 1;
        let status = status_of_child(file).expect("a child process can be started and given a file");
        if status.signal() == Some(SIGABRT) {
            self.aborted += 1;
            return;
        }
        report.difference(|| format!("huge count: the Rust did not abort but ended with {status}: {}", hex(file)));
    }
}
