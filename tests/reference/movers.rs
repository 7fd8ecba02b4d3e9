//! The reference against the program that moves a recording: a process for each, held to the bytes or to the refusal.

use crate::calls::Function::*;
use crate::edition::Edition;
use crate::moves::shifted;
use crate::requests::call;
use crate::text::hex;
use std::fs;
use std::path::{Path, PathBuf};
use std::process::Command;

/// What stands on standard output if the program says nothing beside it; else what it says.
fn written(words: &[&str], way: &str, path: &Path) -> Result<Result<Vec<u8>, String>, String> {
    let (program, rest) = words.split_first().ok_or("no program is named")?;
    let ran = Command::new(program).args(rest).arg(way).arg(path).output().map_err(|e| format!("{program}: {e}"))?;
    let said = String::from_utf8_lossy(&ran.stderr).to_string();
    let well = ran.status.success() && said.is_empty();
    Ok(if well { Ok(ran.stdout) } else { Err(said.trim_end().to_string()) })
}

fn place() -> PathBuf {
    std::env::temp_dir().join(format!("manilaply-moved-{}", std::process::id()))
}

/// True if the program moves or refuses every recording as the reference does; every second one is of edition 2. Refusal 9
/// is none of it, since it lends itself what it needs.
pub fn movers(seed: u64, count: u64, words: &[&str]) -> Result<bool, String> {
    let path = place();
    let mut differences = 0;
    for index in 0..count {
        let (function, from, way) =
            if index % 2 == 0 { (Widen, Edition::One, "widen") } else { (Narrow, Edition::Two, "narrow") };
        let recording = call(function, seed, index, true).data;
        let expected = shifted(from, &recording, usize::MAX).map_err(|refusal| format!("refused {refusal}"));
        fs::write(&path, &recording).map_err(|e| e.to_string())?;
        let got = written(words, way, &path)?;
        if got != expected {
            differences += 1;
            println!("DIFFERS {way}: {}\n  reference {expected:?}\n  product   {got:?}", hex(&recording));
        }
    }
    fs::remove_file(&path).map_err(|e| e.to_string())?;
    println!("mover: {count} recordings, a process each, seed {seed}: {differences} differ");
    Ok(differences == 0)
}
