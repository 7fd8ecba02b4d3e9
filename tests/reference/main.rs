//! An independent reference for the judge of DDR3 command recordings, written from the rules paper alone.
//!
//! reference vectors DIR                 checks the vector files; 1 on a difference
//! reference judge                       lines "hex end [lent]" to answers
//! reference program                     lines "hex" to the program's line
//! reference register                    lines "header number code [lent]" (hex, decimal, hex) to answers
//! reference burst                       lines "length start type direction [lent]" to answers
//! reference widen, narrow               lines "hex [lent]" to answers
//! reference generate SEED COUNT [small] recordings, a line each: hex, end, lent; `wide` for those of edition 2
//! reference wide SEED COUNT [small]
//! reference count SEED COUNT [small]    how often each answer comes
//! reference long KIND SEED RECORDS      a long recording, as bytes: rounds, mix, modes, idle, broken, naps
//! reference long KIND SEED RECORDS HOW  the same in edition 2: both, both ranks together, or turns, the first alone
//! reference rounds SEED RECORDS         that of the rounds
//! reference came SEED COUNT             what comes among so many calls of each function
//! reference functions SEED COUNT WORDS  compares the C harness that WORDS start; `few` for COUNT's small ones only
//! reference few SEED COUNT WORDS
//! reference programs SEED COUNT WORDS   compares the program, a process for each recording
//! reference movers SEED COUNT WORDS     compares the program that moves a recording
//! reference cuts SEED COUNT WORDS       compares the program for cuts
//!
//! An empty recording or header is written "-", the last record's edge as an end "-". `small` and `few` leave out the
//! recordings at the limit of records.

mod banks;
mod beside;
mod bursts;
mod calls;
mod compare;
mod controller;
mod corners;
mod count;
mod cuts;
mod damage;
mod deadlines;
mod driver;
mod edition;
mod features;
mod gaps;
mod generate;
mod harness;
mod header;
mod intervals;
mod long;
mod movers;
mod moves;
mod moving;
mod naps;
mod powerdown;
mod programs;
mod proposals;
mod random;
mod ranks;
mod recording;
mod registers;
mod requests;
mod rules;
mod settings;
mod shrink;
mod slips;
mod tally;
mod text;
mod vectors;
mod verdict;
mod waits;

use damage::Case;
use edition::Edition;
use std::io::{stdin, stdout, BufRead, BufWriter, Write};
use std::process::ExitCode;

fn main() -> ExitCode {
    let arguments: Vec<String> = std::env::args().skip(1).collect();
    let words: Vec<&str> = arguments.iter().map(String::as_str).collect();
    match done(&words) {
        Ok(true) => ExitCode::SUCCESS,
        Ok(false) => ExitCode::from(1),
        Err(message) => {
            eprintln!("{message}");
            ExitCode::from(2)
        }
    }
}

fn done(words: &[&str]) -> Result<bool, String> {
    match words[..] {
        ["vectors", directory] => vectors::check_vectors(directory),
        ["judge"] => answer_lines(judge_line),
        ["program"] => answer_lines(program_answer),
        ["register"] => answer_lines(register_line),
        ["burst"] => answer_lines(burst_line),
        ["widen"] => answer_lines(|words| move_line(Edition::One, words)),
        ["narrow"] => answer_lines(|words| move_line(Edition::Two, words)),
        ["generate", seed, count] => generate(generate::case, seed, count, false),
        ["generate", seed, count, "small"] => generate(generate::case, seed, count, true),
        ["wide", seed, count] => generate(generate::wide_case, seed, count, false),
        ["wide", seed, count, "small"] => generate(generate::wide_case, seed, count, true),
        ["count", seed, count] => count::count(seed, count, false),
        ["count", seed, count, "small"] => count::count(seed, count, true),
        ["long", kind, seed, records] => long(kind, seed, records),
        ["long", kind, seed, records, how] => long_and_wide(kind, how, seed, records),
        ["rounds", seed, records] => long("rounds", seed, records),
        ["came", seed, count] => compare::came(number(seed)?, number(count)?),
        ["functions", seed, count, ref words @ ..] => compare::functions(number(seed)?, number(count)?, false, words),
        ["few", seed, count, ref words @ ..] => compare::functions(number(seed)?, number(count)?, true, words),
        ["programs", seed, count, ref words @ ..] => programs::programs(number(seed)?, number(count)?, words),
        ["movers", seed, count, ref words @ ..] => movers::movers(number(seed)?, number(count)?, words),
        ["cuts", seed, count, ref words @ ..] => cuts::cuts(number(seed)?, number(count)?, words),
        _ => Err("main.rs tells what can be asked".into()),
    }
}

/// One line of answer for each line of question, flushed so that the other end can wait for it.
fn answer_lines(answer: fn(&[&str]) -> Result<String, String>) -> Result<bool, String> {
    let mut out = stdout().lock();
    for line in stdin().lock().lines() {
        let line = line.map_err(|e| e.to_string())?;
        let words: Vec<&str> = line.split_whitespace().collect();
        writeln!(out, "{}", answer(&words)?).map_err(|e| e.to_string())?;
    }
    Ok(true)
}

fn number<T: std::str::FromStr>(text: &str) -> Result<T, String> {
    text.parse().map_err(|_| format!("not a number here: {text}"))
}

fn judge_line(words: &[&str]) -> Result<String, String> {
    let (recording, end, lent) = match *words {
        [recording, end] => (recording, end, 40),
        [recording, end, lent] => (recording, end, number(lent)?),
        _ => return Err("not a line: hex end [lent]".into()),
    };
    let answer = verdict::judge(&text::bytes_of_hex(recording)?, text::end_of_text(end)?, lent);
    Ok(text::answer_text(&answer))
}

fn program_answer(words: &[&str]) -> Result<String, String> {
    match *words {
        [recording, ..] => Ok(verdict::program_lines(&text::bytes_of_hex(recording)?).join(" ; ")),
        [] => Err("not a line: hex".into()),
    }
}

fn bytes_or_refusal(answer: Result<Vec<u8>, u32>) -> String {
    answer.map_or_else(|refusal| format!("refused {refusal}"), |bytes| text::hex(&bytes))
}

fn move_line(from: Edition, words: &[&str]) -> Result<String, String> {
    let (recording, lent) = match *words {
        [recording] => (recording, usize::MAX),
        [recording, lent] => (recording, number(lent)?),
        _ => return Err("not a line: hex [lent]".into()),
    };
    Ok(bytes_or_refusal(moves::shifted(from, &text::bytes_of_hex(recording)?, lent)))
}

fn register_line(words: &[&str]) -> Result<String, String> {
    let (header, register, code, lent) = match *words {
        [header, register, code] => (header, register, code, 6),
        [header, register, code, lent] => (header, register, code, number(lent)?),
        _ => return Err("not a line: header number code [lent]".into()),
    };
    let code = u16::from_str_radix(code, 16).map_err(|_| format!("not a code: {code}"))?;
    let header = text::bytes_of_hex(header)?;
    let answer = registers::register_reading(&header, number(register)?, code, lent);
    Ok(bytes_or_refusal(answer.map(|six| six.to_vec())))
}

fn burst_line(words: &[&str]) -> Result<String, String> {
    let numbers = words.iter().map(|word| number(word)).collect::<Result<Vec<u32>, String>>()?;
    let (length, start, kind, direction, lent) = match numbers[..] {
        [length, start, kind, direction] => (length, start, kind, direction, 8),
        [length, start, kind, direction, lent] => (length, start, kind, direction, lent as usize),
        _ => return Err("not a line: length start type direction [lent]".into()),
    };
    Ok(bytes_or_refusal(bursts::burst_order(length, start, kind, direction, lent)))
}

fn long(kind: &str, seed: &str, records: &str) -> Result<bool, String> {
    let bytes = long::long(kind, number(seed)?, number(records)?)?;
    stdout().write_all(&bytes).map(|_| true).map_err(|e| e.to_string())
}

fn long_and_wide(kind: &str, how: &str, seed: &str, records: &str) -> Result<bool, String> {
    let bytes = long::long_and_wide(kind, how, number(seed)?, number(records)?)?;
    stdout().write_all(&bytes).map(|_| true).map_err(|e| e.to_string())
}

fn generate(make: fn(u64, u64, bool) -> Case, seed: &str, count: &str, small: bool) -> Result<bool, String> {
    let mut out = BufWriter::new(stdout().lock());
    for index in 0..number(count)? {
        let case = make(number(seed)?, index, small);
        writeln!(out, "{} {} {}", text::hex(&case.recording), case.end, case.lent).map_err(|e| e.to_string())?;
    }
    out.flush().map_err(|e| e.to_string())?;
    Ok(true)
}
