//! The C harness at the other end of two pipes. tests/reference/harness.c tells the form of a request.

use crate::calls::Call;
use std::io::{Read, Write};
use std::process::{Child, ChildStdin, ChildStdout, Command, Stdio};

pub struct Harness {
    child: Child,
    requests: ChildStdin,
    answers: ChildStdout,
    turn: u64,
}

/// What a call returned, the bytes that it altered and may not, the lent bytes before it and after it.
pub struct Returned {
    pub code: u32,
    pub altered: u64,
    pub before: Vec<u8>,
    pub after: Vec<u8>,
}

impl Harness {
    pub fn start(words: &[&str]) -> Result<Harness, String> {
        let (program, rest) = words.split_first().ok_or("no harness is named")?;
        let mut command = Command::new(program);
        command.args(rest).stdin(Stdio::piped()).stdout(Stdio::piped());
        let mut child = command.spawn().map_err(|e| format!("{program}: {e}"))?;
        let (requests, answers) = (child.stdin.take().unwrap(), child.stdout.take().unwrap());
        Ok(Harness { child, requests, answers, turn: 0 })
    }

    pub fn call(&mut self, call: &Call) -> Result<Returned, String> {
        let [a, b, c, d] = call.numbers;
        self.turn += 1;
        let fill = self.turn * 101 % 256;
        let numbers = [call.function.number(), call.data.len() as u64, a, b, c, d, call.lent as u64, fill];
        let request = [numbers.map(u64::to_le_bytes).concat(), call.data.clone()].concat();
        let ended = |e: std::io::Error| format!("the harness ended ({e}) at {}", call.text());
        self.requests.write_all(&request).map_err(ended)?;
        let mut answer = vec![0; 16 + call.lent];
        self.answers.read_exact(&mut answer).map_err(ended)?;
        let number = |place: usize| u64::from_le_bytes(answer[place..place + 8].try_into().unwrap());
        let before = (0..call.lent).map(|i| (i as u64 * 37 + fill) as u8).collect();
        Ok(Returned { code: number(0) as u32, altered: number(8), before, after: answer[16..].to_vec() })
    }

    /// True if the harness ends well once it has no more requests.
    pub fn end(self) -> Result<bool, String> {
        let Harness { mut child, requests, .. } = self;
        drop(requests);
        child.wait().map(|status| status.success()).map_err(|e| e.to_string())
    }
}
