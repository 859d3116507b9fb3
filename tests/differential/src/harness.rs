//! The harness as a child process that answers requests in their order.

use std::io::{Read, Result, Write};
use std::process::{Child, ChildStdin, ChildStdout, Command, Stdio};

/// So many bytes of requests go together: their answers fit into a pipe, so that neither side waits
/// for the other while it writes.
pub const TOGETHER: usize = 48 << 10;

pub struct Harness {
    child: Child,
    /// There as long as the harness is.
    input: Option<ChildStdin>,
    output: ChildStdout,
}

impl Drop for Harness {
    /// The child ends by itself when its input does; it is waited for, so that none is left behind.
    fn drop(&mut self) {
        self.input = None;
        let _ = self.child.wait();
    }
}

impl Harness {
    /// Starts a program by the words that start programs here.
    pub fn start(words: &[String], program: &str) -> Result<Harness> {
        let all: Vec<&str> = words
            .iter()
            .map(|word| &word[..])
            .chain([program])
            .collect();
        let mut child = Command::new(all[0])
            .args(&all[1..])
            .stdin(Stdio::piped())
            .stdout(Stdio::piped())
            .spawn()?;
        Ok(Harness {
            input: child.stdin.take(),
            output: child.stdout.take().expect("its output is a pipe"),
            child,
        })
    }

    /// Sends the bodies of some requests, of which all but the first have at most `TOGETHER` bytes.
    pub fn send<'a>(&mut self, bodies: impl Iterator<Item = &'a [u8]>) -> Result<()> {
        let mut requests = Vec::new();
        for body in bodies {
            requests.extend((body.len() as u32).to_le_bytes());
            requests.extend(body);
        }
        let input = self.input.as_mut().expect("its input is a pipe");
        input.write_all(&requests)
    }

    /// The body of the next answer, which is as long as its request's.
    pub fn answer(&mut self, length: usize) -> Result<Vec<u8>> {
        let mut answer = vec![0; length];
        self.output.read_exact(&mut answer)?;
        Ok(answer)
    }

    /// Some requests and their answers.
    pub fn ask<'a>(
        &mut self,
        bodies: impl Iterator<Item = &'a [u8]> + Clone,
    ) -> Result<Vec<Vec<u8>>> {
        self.send(bodies.clone())?;
        bodies.map(|body| self.answer(body.len())).collect()
    }
}
