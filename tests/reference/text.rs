//! Recordings and answers as lines of text.

use crate::banks::Bank;
use crate::registers::Registers;
use crate::verdict::{all_bytes, lines, verdict_bytes, Closing};

/// An empty recording is written "-".
pub fn hex(bytes: &[u8]) -> String {
    const DIGITS: &[u8; 16] = b"0123456789abcdef";
    if bytes.is_empty() {
        return "-".to_string();
    }
    let mut text = String::with_capacity(2 * bytes.len());
    for byte in bytes {
        text.push(DIGITS[(byte >> 4) as usize] as char);
        text.push(DIGITS[(byte & 15) as usize] as char);
    }
    text
}

pub fn bytes_of_hex(text: &str) -> Result<Vec<u8>, String> {
    if text == "-" {
        return Ok(vec![]);
    }
    let digit = |c: u8| (c as char).to_digit(16).ok_or_else(|| format!("not a hex digit: {}", c as char));
    if text.len() % 2 != 0 {
        return Err("an odd number of hex digits".to_string());
    }
    text.as_bytes().chunks_exact(2).map(|pair| Ok((digit(pair[0])? << 4 | digit(pair[1])?) as u8)).collect()
}

/// An end edge; "-" or "last" is the last record's.
pub fn end_of_text(text: &str) -> Result<Option<u64>, String> {
    match text {
        "-" | "last" => Ok(None),
        number => number.parse().map(Some).map_err(|_| format!("not an end edge: {number}")),
    }
}

pub fn banks_text(banks: &[Bank]) -> String {
    let text = |bank: &Bank| match bank {
        Bank::Idle => "i".to_string(),
        Bank::Open(act) => format!("o{:04x}@{}", act.row, act.edge),
        Bank::Closing(act) => format!("c{:04x}@{}", act.row, act.edge),
    };
    banks.iter().map(text).collect::<Vec<_>>().join(" ")
}

pub fn registers_text(registers: &Registers) -> String {
    let text = |code: &Option<u16>| code.map_or("-".to_string(), |code| format!("{code:04x}"));
    registers.0.iter().map(text).collect::<Vec<_>>().join(" ")
}

/// A rank's picture: bytes, banks, registers, debt.
pub fn closing_text(closing: &Closing) -> String {
    let bytes = hex(&verdict_bytes(&closing.verdict));
    let (banks, registers) = (banks_text(&closing.banks), registers_text(&closing.registers));
    format!("{bytes}\t{banks}\t{registers}\t{}", closing.debt)
}

/// The ranks' texts side by side.
pub fn joined(closings: &[Closing], text: impl Fn(&Closing) -> String) -> String {
    closings.iter().map(text).collect::<Vec<_>>().join(" ; ")
}

/// A recording's lines side by side.
pub fn line_text(answer: &Result<Vec<Closing>, u32>) -> String {
    lines(answer).join(" ; ")
}

pub fn answer_text(answer: &Result<Vec<Closing>, u32>) -> String {
    let Ok(closings) = answer else { return line_text(answer) };
    let banks = joined(closings, |closing| banks_text(&closing.banks));
    let registers = joined(closings, |closing| registers_text(&closing.registers));
    let debt = joined(closings, |closing| closing.debt.to_string());
    format!("{}\t{banks}\t{registers}\t{debt}", hex(&all_bytes(closings)))
}
