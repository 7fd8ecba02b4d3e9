//! The reference against the program for cuts: a recording in sections, empty and refused ones in between, the verdict so
//! far and the waiting times after each, and the picture at the end; each set of an opening's and of a section's refusals at
//! once. crates/sections_run/src/main.rt tells the form of a case.

use crate::damage::{nop, Case};
use crate::edition::{Edition, Edition::*};
use crate::generate::{case, wide_case};
use crate::header::Header;
use crate::programs::printed;
use crate::random::Random;
use crate::recording::{open, section_refusal, MOST_RECORDS};
use crate::text::{closing_text, hex};
use crate::verdict::{judge, lines, verdict_line, waits_after};

/// Each section with its line and the waiting times, and the whole picture.
const PRINT_ALL: u8 = 4;
const LAST_EDGE: u64 = (1 << 48) - 1;
const LONGEST_HEADER: usize = 8;

/// Lent enough for either edition.
const ROOM: usize = 40;

#[derive(Clone)]
struct Cut {
    edition: Edition,
    header: Vec<u8>,
    sections: Vec<Vec<u8>>,
    end: Option<u64>,
}

/// The recording at random places, and behind each now and then an empty section, or one that is refused.
fn cut(random: &mut Random, case: &Case) -> Cut {
    let (header, rest) = case.recording.split_at(case.recording.len().min(6));
    let mut header = header.to_vec();
    if header.len() == 6 && random.chance(2) {
        header.resize(random.between(7, LONGEST_HEADER as i64) as usize, 0);
    }
    let longest = random.pick(&[1, 3, 10, 40, 2000]);
    let mut sections = vec![];
    let mut at = 0;
    while at < rest.len() {
        if random.chance(20) {
            sections.push(odd_section(random, case.edition, &rest[at..]));
        }
        let next = rest.len().min(at + case.edition.size() * random.between(1, longest) as usize);
        sections.push(rest[at..next].to_vec());
        at = next;
    }
    sections.push(odd_section(random, case.edition, rest));
    let end = random.chance(50).then_some(case.end).filter(|end| *end < LAST_EDGE);
    Cut { edition: case.edition, header, sections, end }
}

/// Empty; or one to three of these: bytes left over (5), a step of 0 (6), in edition 2 a zero bit that is set (14).
fn odd_section(random: &mut Random, edition: Edition, rest: &[u8]) -> Vec<u8> {
    let size = edition.size();
    let mut section = rest[..rest.len().min(size * random.between(1, 5) as usize) / size * size].to_vec();
    let kind = random.below(1 << 3);
    if kind == 0 || section.is_empty() {
        return vec![];
    }
    let records = section.len() as u64 / size as u64;
    let mut place = || size * random.below(records) as usize;
    let (still, marked) = (place(), place());
    if kind & 1 != 0 {
        section[still..still + 3].fill(0);
    }
    if kind & 2 != 0 && edition == Two {
        section[marked + 7] |= 1 << random.below(8);
    }
    if kind & 4 != 0 || kind == 2 && edition == One {
        section.extend((0..random.between(1, size as i64 - 1)).map(|_| 0x5A));
    }
    section
}

/// Headers that are refused, each set of 1, 2, 3 and 4 at once.
fn refused_openings(edition: Edition) -> Vec<Cut> {
    let spoilt = |set: u32| {
        let mut header = vec![edition.number() << 4 | 4, 0x05, 0xDC, 0, 0, 0];
        if set & 1 != 0 {
            header.push(0);
        }
        if set & 2 != 0 {
            header[0] = 0x34;
        }
        if set & 4 != 0 {
            header[1] |= 0x40;
        }
        if set & 8 != 0 {
            header[2] = 0xDB;
        }
        Cut { edition, header, sections: vec![vec![]], end: None }
    };
    (1..16).map(spoilt).collect()
}

/// A section for which each refusal of this set holds: 5, 7, 6, 14, where so many records are too many.
fn refused_section(edition: Edition, set: u32, too_many: usize) -> Vec<u8> {
    let mut section = nop(edition).repeat(if set & 2 != 0 { too_many } else { 3 });
    if set & 4 != 0 {
        let last = section.len() - edition.size();
        section[last..last + 3].fill(0);
    }
    if set & 8 != 0 && edition == Two {
        section[7] |= 1;
    }
    if set & 1 != 0 {
        section.push(0);
    }
    section
}

/// Sections up to the limit of records but for the last 64; then each set of a section's refusals at once; then 64 records, one
/// more (7), none. The steps are long, so that the debt breaks at once and the reference has little to look back over.
fn cut_at_the_limit(edition: Edition) -> Cut {
    let longest = 65536 / edition.size();
    let full = (MOST_RECORDS - 64) / longest;
    let rest = MOST_RECORDS - 64 - full * longest;
    let sizes = std::iter::repeat(longest).take(full).chain([rest, 64, 1, 0]);
    let mut sections: Vec<Vec<u8>> = sizes.map(|records| nop(edition).repeat(records)).collect();
    let sets = if edition == One { 1..8 } else { 1..16 };
    sections.splice(full + 1..full + 1, sets.map(|set| refused_section(edition, set, 65)));
    Cut { edition, header: vec![edition.number() << 4 | 4, 0x05, 0xDC, 0, 0, 0], sections, end: None }
}

impl Cut {
    fn bytes(&self) -> Vec<u8> {
        let mut bytes = vec![PRINT_ALL, self.header.len() as u8];
        bytes.extend(&self.end.unwrap_or(LAST_EDGE).to_be_bytes()[2..]);
        bytes.extend((self.sections.len() as u16).to_be_bytes());
        bytes.extend(&self.header);
        bytes.resize(10 + LONGEST_HEADER, 0);
        bytes.extend(self.sections.iter().flat_map(|section| (section.len() as u32).to_be_bytes()));
        bytes.extend(self.sections.concat());
        bytes
    }

    fn lines(&self) -> Vec<String> {
        let (edition, header) = match open(&self.header) {
            Ok(opened) => opened,
            Err(refusal) => return vec![format!("refused {refusal}")],
        };
        let mut taken = self.header.clone();
        let mut told = vec![];
        for section in &self.sections {
            match section_refusal(edition, section, (taken.len() - 6) / edition.size()) {
                Some(refusal) => told.push(format!("refused {refusal}")),
                None => {
                    taken.extend(section);
                    told.extend(lines(&judge(&taken, None, ROOM)));
                }
            }
            told.extend(waits_lines(edition, &header, &taken[6..]));
        }
        match judge(&taken, self.end, ROOM) {
            Ok(ranks) => {
                told.extend(ranks.iter().map(|rank| format!("{}\t{}", verdict_line(&rank.verdict), closing_text(rank))))
            }
            Err(refusal) => told.push(format!("refused {refusal}")),
        }
        told
    }

    fn text(&self) -> String {
        let sections: Vec<String> = self.sections.iter().map(|section| hex(section)).collect();
        format!("{} | {} end {:?}", hex(&self.header), sections.join(" | "), self.end)
    }

    /// One section or one record less, if that still differs.
    fn smaller(&self, words: &[&str]) -> Option<Cut> {
        let without_section = (0..self.sections.len()).map(|place| {
            let mut less = self.clone();
            less.sections.remove(place);
            less
        });
        let places = self.sections.iter().enumerate();
        let size = self.edition.size();
        let records = places.flat_map(|(place, section)| (0..section.len() / size).map(move |number| (place, number)));
        let without_record = records.map(|(place, number)| {
            let mut less = self.clone();
            less.sections[place].drain(size * number..size * number + size);
            less
        });
        without_section.chain(without_record).find(|less| !matches!(difference(words, less), Ok(None)))
    }
}

/// A line a rank.
fn waits_lines(edition: Edition, header: &Header, section: &[u8]) -> Vec<String> {
    let of_rank = |rank| waits_after(header, &edition.seen_by(section, rank));
    let line = |waits: Vec<i64>| waits.iter().map(i64::to_string).collect::<Vec<String>>().join(" ");
    (0..edition.ranks()).map(of_rank).map(line).collect()
}

fn difference(words: &[&str], cut: &Cut) -> Result<Option<String>, String> {
    let (expected, text) = (cut.lines().join("\n"), printed(words, &cut.bytes())?);
    Ok((text.trim_end() != expected).then(|| format!("reference\n{expected}\nproduct\n{text}")))
}

/// True if the program for cuts prints the reference's lines for every case, all of them in one process; every second one is
/// of edition 2.
pub fn cuts(seed: u64, count: u64, words: &[&str]) -> Result<bool, String> {
    let mut random = Random::new(seed ^ 0xC075);
    let made = |index| if index % 2 == 0 { case(seed, index, true) } else { wide_case(seed, index, true) };
    let mut cuts: Vec<Cut> = (0..count).map(|index| cut(&mut random, &made(index))).collect();
    cuts.extend([One, Two].map(cut_at_the_limit));
    cuts.extend([One, Two].into_iter().flat_map(refused_openings));
    let text = printed(words, &cuts.iter().flat_map(Cut::bytes).collect::<Vec<u8>>())?;
    let mut lines = text.lines();
    for cut in &cuts {
        if cut.lines().iter().any(|line| lines.next() != Some(line)) {
            let mut small = cut.clone();
            while let Some(smaller) = small.smaller(words) {
                small = smaller;
            }
            println!("DIFFERS cuts: {}\n{}", small.text(), difference(words, &small)?.unwrap_or_default());
            return Ok(false);
        }
    }
    let ended = lines.next().is_none();
    let sections: usize = cuts.iter().map(|cut| cut.sections.len()).sum();
    println!(
        "cuts: {count} recordings and one of each edition at the limit, in {sections} sections, seed {seed}: 0 differ"
    );
    Ok(ended)
}
