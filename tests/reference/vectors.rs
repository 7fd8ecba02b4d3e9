//! Checks the vector files and the paper's examples, every field of every line.

use crate::bursts::burst_order;
use crate::edition::Edition::*;
use crate::header::read_header;
use crate::moves::shifted;
use crate::registers::{allowed, register_reading};
use crate::text::{answer_text, banks_text, bytes_of_hex, end_of_text, hex, joined, line_text, registers_text};
use crate::verdict::{judge, program_lines};
use std::fs::read_to_string;

#[derive(Default)]
struct Tally {
    agreed: usize,
    differed: usize,
}

impl Tally {
    fn compare(&mut self, place: &str, expected: &str, got: &str) {
        if expected == got {
            self.agreed += 1;
        } else {
            self.differed += 1;
            println!("{place}\n  expected {expected}\n  got      {got}");
        }
    }
}

/// True when all agree.
pub fn check_vectors(directory: &str) -> Result<bool, String> {
    let read = |name: &str| read_to_string(format!("{directory}/{name}")).map_err(|e| format!("{name}: {e}"));
    let checks = [
        ("program.txt", program_file(&read("program.txt")?)?),
        ("long.txt", program_file(&read("long.txt")?)?),
        ("whole.txt", whole_file(&read("whole.txt")?)?),
        ("requests.txt", whole_file(&read("requests.txt")?)?),
        ("readings.txt", readings_file(&read("readings.txt")?)?),
        ("requests-readings.txt", titled_file(&read("requests-readings.txt")?)?),
        ("registers.txt", registers_file(&read("registers.txt")?)?),
        ("moves.txt", moves_file(&read("moves.txt")?)?),
        ("examples of the paper", paper_examples()),
    ];
    for (name, tally) in &checks {
        println!("{name}: {} agree, {} differ", tally.agreed, tally.differed);
    }
    Ok(checks.iter().all(|(_, tally)| tally.differed == 0 && tally.agreed > 0))
}

/// Room for the verdicts of either edition.
const ROOM: usize = 40;

fn program_text(recording: &[u8]) -> String {
    program_lines(recording).join(" ; ")
}

/// Hex of a recording, tab, the program's line.
fn program_file(text: &str) -> Result<Tally, String> {
    let mut tally = Tally::default();
    for (line, number) in text.lines().zip(1..) {
        let (recording, expected) = line.split_once('\t').ok_or(format!("line {number}: no tab"))?;
        tally.compare(&format!("line {number}"), expected, &program_text(&bytes_of_hex(recording)?));
    }
    Ok(tally)
}

/// Hex, end, line, and where not refused the verdict's bytes, banks, registers, debt; those of two ranks side by side.
fn whole_file(text: &str) -> Result<Tally, String> {
    let mut tally = Tally::default();
    for (line, number) in text.lines().zip(1..) {
        let mut fields = line.splitn(3, '\t');
        let mut next = || fields.next().ok_or(format!("line {number}: too few fields"));
        let (recording, end, expected) = (bytes_of_hex(next()?)?, end_of_text(next()?)?, next()?);
        let answer = judge(&recording, end, ROOM);
        let line = line_text(&answer);
        let got = if answer.is_err() { line } else { format!("{line}\t{}", answer_text(&answer)) };
        tally.compare(&format!("line {number}"), expected, &got);
    }
    Ok(tally)
}

/// Three lines each: a title, "hex end edge", "line | banks | registers | debt".
fn readings_file(text: &str) -> Result<Tally, String> {
    let mut tally = Tally::default();
    let lines: Vec<&str> = text.lines().map(str::trim).collect();
    for three in lines.chunks(3) {
        let [title, question, expected] = three else { return Err("readings: not three lines".to_string()) };
        let (recording, end) = question.split_once(" end ").ok_or(format!("{title}: no end"))?;
        let answer = judge(&bytes_of_hex(recording)?, end_of_text(end)?, ROOM);
        let got = match &answer {
            Err(_) => line_text(&answer),
            Ok(closings) => format!(
                "{} | {} | {} | {}",
                line_text(&answer),
                joined(closings, |closing| banks_text(&closing.banks)),
                joined(closings, |closing| registers_text(&closing.registers)),
                joined(closings, |closing| closing.debt.to_string())
            ),
        };
        tally.compare(title, expected, &got);
    }
    Ok(tally)
}

/// A title, hex, end, line.
fn titled_file(text: &str) -> Result<Tally, String> {
    let mut tally = Tally::default();
    for line in text.lines() {
        let [title, recording, end, expected] = line.split('\t').collect::<Vec<_>>()[..] else {
            return Err(format!("not four fields: {line}"));
        };
        let answer = judge(&bytes_of_hex(recording)?, end_of_text(end)?, ROOM);
        tally.compare(title, expected, &line_text(&answer));
    }
    Ok(tally)
}

/// Header, number, code, what is returned, the six bytes or none.
fn registers_file(text: &str) -> Result<Tally, String> {
    let mut tally = Tally::default();
    for line in text.lines() {
        let [header, number, code, expected] = line.splitn(4, '\t').collect::<Vec<_>>()[..] else {
            return Err(format!("too few fields: {line}"));
        };
        let number = number.parse().map_err(|_| format!("not a number: {line}"))?;
        let code = u16::from_str_radix(code, 16).map_err(|_| format!("not a code: {line}"))?;
        let got = match register_reading(&bytes_of_hex(header)?, number, code, 6) {
            Ok(six) => format!("0\t{}", hex(&six)),
            Err(refusal) => format!("{refusal}\t-"),
        };
        tally.compare(line, expected, &got);
    }
    Ok(tally)
}

/// The edition moved to, the lent length, hex, and the moved bytes or `refused N`. What is moved goes back to the same.
fn moves_file(text: &str) -> Result<Tally, String> {
    let mut tally = Tally::default();
    for (line, number) in text.lines().zip(1..) {
        let [to, lent, recording, expected] = line.split('\t').collect::<Vec<_>>()[..] else {
            return Err(format!("not four fields: {line}"));
        };
        let (from, back) = if to == "2" { (One, Two) } else { (Two, One) };
        let lent = lent.parse().map_err(|_| format!("not a length: {line}"))?;
        let recording = bytes_of_hex(recording)?;
        let answer = shifted(from, &recording, lent);
        if let Ok(bytes) = &answer {
            let again = shifted(back, bytes, recording.len());
            tally.compare(
                &format!("line {number}, back"),
                &hex(&recording),
                &again.map_or_else(text_of, |bytes| hex(&bytes)),
            );
        }
        tally.compare(&format!("line {number}"), expected, &answer.map_or_else(text_of, |bytes| hex(&bytes)));
    }
    Ok(tally)
}

fn text_of(refusal: u32) -> String {
    format!("refused {refusal}")
}

const P1_HEADER: [u8; 6] = [0x14, 0x05, 0xDC, 0, 0, 0];
const P2_HEADER: [u8; 6] = [0x1F, 0x04, 0x2E, 0, 0, 0];
const P8_HEX: &str = "1405DC000000000001820010000004830000000004810000000004800B5000000C9B01230001F4AB0000000004930000";

fn paper_examples() -> Tally {
    let mut tally = Tally::default();
    clock_counts(&mut tally);
    orders_and_codes(&mut tally);
    recordings(&mut tally);
    tally
}

fn clock_counts(tally: &mut Tally) {
    let p1 = read_header(&P1_HEADER).unwrap();
    let p1_counts = [
        p1.t_rcd(),
        p1.t_rp(),
        p1.t_rc(),
        p1.t_ras(),
        p1.t_rrd(),
        p1.t_faw(),
        p1.t_rtp(),
        p1.t_wr(),
        p1.t_rfc(),
        p1.t_mod(),
        p1.t_xs(),
        p1.t_refi(),
    ];
    tally.compare("P1", "[9, 9, 33, 24, 4, 20, 5, 10, 74, 12, 80, 5200]", &format!("{p1_counts:?}"));
    let p2 = read_header(&P2_HEADER).unwrap();
    let p2_counts = [
        p2.t_rcd(),
        p2.t_rp(),
        p2.t_rc(),
        p2.t_ras(),
        p2.t_rrd(),
        p2.t_faw(),
        p2.t_rtp(),
        p2.t_wr(),
        p2.t_rfc(),
        p2.t_mod(),
        p2.t_xs(),
        p2.t_refi(),
    ];
    tally.compare("P2", "[12, 12, 44, 32, 6, 33, 8, 15, 150, 15, 159, 7289]", &format!("{p2_counts:?}"));
    greatest_counts(tally);
}

/// Greatest tRAS and the greatest gap, not hot and hot. Of a hot part 35,100,000 ps are rounded down once, and nine
/// intervals are nine times what is rounded down.
fn greatest_counts(tally: &mut Tally) {
    for (period, expected) in [
        (1070u16, "[65420, 65601, 32803, 32796]"),
        (1250, "[56000, 56160, 28080, 28080]"),
        (1499, "[46697, 46827, 23415, 23409]"),
        (1500, "[46666, 46800, 23400, 23400]"),
        (1875, "[37333, 37440, 18720, 18720]"),
        (2501, "[27988, 28062, 14034, 14031]"),
        (3300, "[21212, 21267, 10636, 10629]"),
    ] {
        let [high, low] = period.to_be_bytes();
        let [cold, hot] = [0, 0x80].map(|bit| read_header(&[0x1C, high | bit, low, 0, 0, 0]).unwrap());
        let counts = [cold.greatest_t_ras(), cold.greatest_gap(), hot.greatest_t_ras(), hot.greatest_gap()];
        tally.compare(&format!("greatest times at {period} ps"), expected, &format!("{counts:?}"));
    }
}

fn orders_and_codes(tally: &mut Tally) {
    let order = |length, start, kind, direction| format!("{:?}", burst_order(length, start, kind, direction, 8));
    tally.compare("P3", "Ok([5, 6, 7, 4, 1, 2, 3, 0])", &order(8, 5, 0, 0));
    tally.compare("P3", "Ok([5, 4, 7, 6, 1, 0, 3, 2])", &order(8, 5, 1, 0));
    tally.compare("P4", "Ok([6, 7, 4, 5])", &order(4, 6, 0, 0));
    tally.compare("P4", "Ok([4, 5, 6, 7])", &order(4, 6, 0, 1));
    tally.compare("order 10 before 9", "Err(10)", &format!("{:?}", burst_order(5, 0, 0, 0, 0)));
    tally.compare("order 9", "Err(9)", &format!("{:?}", burst_order(8, 7, 0, 0, 7)));
    let reading = |header: &[u8], number, code| format!("{:?}", register_reading(header, number, code, 6));
    tally.compare("P5", "Ok([0, 0, 9, 1, 10, 0])", &reading(&P1_HEADER, 0, 0x0B50));
    tally.compare("P6", "Err(2315)", &reading(&P2_HEADER, 0, 0x0E04));
    tally.compare("P6", "Ok([0, 0, 12, 0, 16, 0])", &reading(&P2_HEADER, 0, 0x0004));
    tally.compare("a header of seven bytes", "Err(1)", &reading(&[0; 7], 4, 0));
    for (period, cl_6, cl_7) in [(2500u16, "true", "false"), (2499, "false", "true")] {
        let [high, low] = period.to_be_bytes();
        let header = read_header(&[0x14, high, low, 0, 0, 0]).unwrap();
        tally.compare("P7, CL 6", cl_6, &allowed(&header, 0, 0x0E20).to_string());
        tally.compare("P7, CL 7", cl_7, &allowed(&header, 0, 0x0E30).to_string());
    }
}

fn recordings(tally: &mut Tally) {
    let p8 = bytes_of_hex(P8_HEX).unwrap();
    let p9 = [&p8[..p8.len() - 6], &[0, 0, 5, 0x93, 0, 0]].concat();
    let p10 = [&p9[..], &[0, 0, 4, 0x93, 0, 0, 0, 0, 5, 0x9B, 0, 0]].concat();
    tally.compare("P8", "broken 10 7 6 529 5 4", &program_text(&p8));
    tally.compare("P9", "clean 7 530", &program_text(&p9));
    tally.compare("P10", "broken 5 9 8 539 9 5", &program_text(&p10));
    let mut closed = |place: &str, recording: &[u8], end: u64, expected: &str| {
        tally.compare(place, expected, &line_text(&judge(recording, Some(end), 20)));
    };
    closed("P11", &P1_HEADER, 46799, "clean 0 46799");
    closed("P11", &P1_HEADER, 46800, "broken 25 0 0 46800 8 9");
    closed("P12", &p8[..36], 46691, "clean 5 46691");
    closed("P12", &p8[..36], 46692, "broken 24 0 5 46692 46666 46667");
    closed("the greatest end", &P1_HEADER, 1 << 44, "broken 25 0 0 46800 8 9");
    closed("above the greatest end", &P1_HEADER, (1 << 44) + 1, "refused 8");
    for (recording, lent, expected) in
        [(&[][..], 19, 9), (&[], 20, 1), (&[0x24], 39, 9), (&[0x24], 40, 1), (&[0x34], 20, 1)]
    {
        let got = judge(recording, None, lent).err();
        tally.compare("9 before 1", &format!("Some({expected})"), &format!("{got:?}"));
    }
}
