//! The reference against the program: a process for each recording, held to its line.

use crate::edition::{named_by, Edition};
use crate::generate::{case, wide_case};
use crate::shrink::shrink;
use crate::text::hex;
use crate::verdict::program_lines;
use std::io::Write;
use std::process::{Command, Stdio};
use std::thread;

/// What a program prints on this input, and how it ended if not well. One that refuses may read no further.
pub fn printed(words: &[&str], input: &[u8]) -> Result<String, String> {
    let (program, rest) = words.split_first().ok_or("no program is named")?;
    let mut command = Command::new(program);
    command.args(rest).stdin(Stdio::piped()).stdout(Stdio::piped());
    let mut child = command.spawn().map_err(|e| format!("{program}: {e}"))?;
    let mut pipe = child.stdin.take().unwrap();
    let ran = thread::scope(|scope| {
        scope.spawn(move || pipe.write_all(input));
        child.wait_with_output()
    });
    let ran = ran.map_err(|e| e.to_string())?;
    let text = String::from_utf8_lossy(&ran.stdout).to_string();
    Ok(if ran.status.success() { text } else { format!("{text}({})", ran.status) })
}

fn differs(words: &[&str], recording: &[u8]) -> Result<Option<String>, String> {
    let (lines, text) = (program_lines(recording).join("\n"), printed(words, recording)?);
    Ok((text != format!("{lines}\n")).then(|| format!("  reference {lines}\n  product   {}", text.trim_end())))
}

/// True if the program prints the reference's lines for every recording; every second one is of edition 2.
pub fn programs(seed: u64, count: u64, words: &[&str]) -> Result<bool, String> {
    let mut differences = 0;
    for index in 0..count {
        let recording = if index % 2 == 0 { case(seed, index, true) } else { wide_case(seed, index, true) }.recording;
        if differs(words, &recording)?.is_some() {
            differences += 1;
            let edition = named_by(&recording).unwrap_or(Edition::One);
            let small = shrink(edition, recording, &mut |left| !matches!(differs(words, left), Ok(None)));
            println!("DIFFERS program: {}\n{}", hex(&small), differs(words, &small)?.unwrap_or_default());
        }
    }
    println!("program: {count} recordings, a process each, seed {seed}: {differences} differ");
    Ok(differences == 0)
}
