//! The program, run on files in a folder, or fed one of its two files through a pipe.

use std::fs;
use std::io::{ErrorKind, Write};
use std::path::{Path, PathBuf};
use std::process::{Command, Output, Stdio};
use std::thread;
use std::time::Duration;

pub struct Program {
    program: PathBuf,
    table: PathBuf,
    script: PathBuf,
    pub starts: u64,
}

/// What goes through a pipe to the program, in pieces of so many bytes.
#[derive(Clone, Copy, Debug, PartialEq)]
pub enum Piped {
    Table(usize),
    Script(usize),
}

impl Program {
    pub fn new(program: &str, folder: &str) -> Program {
        let file = |name: &str| Path::new(folder).join(name);
        Program { program: program.into(), table: file("table"), script: file("script"), starts: 0 }
    }

    /// What it prints for the two files.
    pub fn run(&mut self, table: &[u8], script: &[u8]) -> Result<Vec<u8>, String> {
        fs::write(&self.table, table).expect("the table's file");
        fs::write(&self.script, script).expect("the script's file");
        self.starts += 1;
        let mut command = Command::new(&self.program);
        command.arg(&self.table).arg(&self.script).stdin(Stdio::null());
        printed(command.output().expect("the program starts"))
    }

    /// As run, with one of the files a pipe.
    pub fn fed(&mut self, table: &[u8], script: &[u8], piped: Piped) -> Result<Vec<u8>, String> {
        self.starts += 1;
        let stdin = PathBuf::from("/dev/stdin");
        let (files, bytes, size) = match piped {
            Piped::Table(size) => {
                fs::write(&self.script, script).expect("the script's file");
                ([&stdin, &self.script], table, size)
            }
            Piped::Script(size) => {
                fs::write(&self.table, table).expect("the table's file");
                ([&self.table, &stdin], script, size)
            }
        };
        let mut command = Command::new(&self.program);
        command.args(files).stdin(Stdio::piped()).stdout(Stdio::piped()).stderr(Stdio::piped());
        let mut child = command.spawn().expect("the program starts");
        let mut pipe = child.stdin.take().expect("a pipe");
        let output = thread::scope(|scope| {
            scope.spawn(move || feed(&mut pipe, bytes, size));
            child.wait_with_output().expect("the program ends")
        });
        printed(output)
    }
}

/// A program that ends at a line that can't be read need not read on: the pipe is then closed.
fn feed(pipe: &mut impl Write, bytes: &[u8], size: usize) {
    for piece in bytes.chunks(size) {
        match pipe.write_all(piece) {
            Err(error) if error.kind() == ErrorKind::BrokenPipe => return,
            done => done.expect("a piece is written"),
        }
        // A small piece shall be read before the next one comes.
        if size < 100 {
            thread::sleep(Duration::from_micros(20));
        }
    }
}

/// A run over two files that can be read says nothing on standard error, and ends by itself.
fn printed(output: Output) -> Result<Vec<u8>, String> {
    if !output.stderr.is_empty() {
        return Err(format!("said on standard error: {}", output.stderr.escape_ascii()));
    }
    match output.status.code() {
        Some(_) => Ok(output.stdout),
        None => Err(format!("was ended: {}", output.status)),
    }
}
