//! A small memory controller: its past, the least edge of a next record, its deadlines,
//! and the edge at which it issues a record when it makes no mistake.

use crate::banks::{bank_at, covers, Bank};
use crate::deadlines::{awake_at, debt_at, gap_deadline};
use crate::header::Header;
use crate::random::Random;
use crate::recording::{asleep_after, cke_after, last_edge, Command, Command::*, Event, Record};
use crate::rules::{banks_of_rule_5, fourth_act_back, latest_start, needed};

/// What a controller likes to do.
#[derive(Clone, Copy)]
pub struct Temper {
    /// ACT, RD, WR, PRE, REF, MRS, ZQ, SRE, NOP, PDE.
    pub weights: [u64; 10],
    pub banks: u8,
    /// Percent of records issued at the least edge.
    pub eager: u64,
    /// Percent of columns with auto precharge.
    pub auto: u64,
    /// Refreshes are postponed up to the first debt and then pulled in down to the second.
    pub debts: (i64, i64),
    pub dll_reset: bool,
}

/// The rules that ask for a least spacing.
pub const SPACINGS: &[u8] = &[4, 5, 6, 7, 8, 9, 10, 11, 12, 13, 14, 15, 16, 17, 18, 19, 20, 21, 22, 26, 27, 29, 30];

/// No least spacing between two records is longer.
const LONGEST_SPACING: i64 = 512;

/// Edges that closing all banks and a refresh can take, with the waits that may still run.
pub const MARGIN: i64 = 700;

/// A step has 24 bits.
const LONGEST_SLEEP: i64 = 0xFF_FF00;

pub struct Controller {
    pub header: Header,
    pub past: Vec<Event>,
    pub section: Vec<u8>,
    pub temper: Temper,
    pub random: Random,
    pub catching_up: bool,
}

pub fn pins_of(command: Command) -> u8 {
    match command {
        Mrs => 0b0000,
        Ref | Sre => 0b0001,
        Pre => 0b0010,
        Act => 0b0011,
        Wr => 0b0100,
        Rd => 0b0101,
        Zq => 0b0110,
        Des => 0b1000,
        _ => 0b0111,
    }
}

impl Controller {
    pub fn new(header: Header, temper: Temper, random: Random) -> Controller {
        Controller { header, past: vec![], section: vec![], temper, random, catching_up: false }
    }

    pub fn now(&self) -> i64 {
        last_edge(&self.past)
    }

    fn bank(&self, bank: u8) -> Bank {
        bank_at(&self.header, &self.past, bank, self.now())
    }

    pub fn banks_where(&self, wanted: fn(&Bank) -> bool) -> Vec<u8> {
        (0..self.temper.banks).filter(|bank| wanted(&self.bank(*bank))).collect()
    }

    pub fn open_banks(&self) -> Vec<u8> {
        self.banks_where(|bank| matches!(bank, Bank::Open(_)))
    }

    pub fn record(&mut self, command: Command, ba: u8, a10: bool) -> Record {
        let a = self.random.next() as u16 & !(1 << 10) | (a10 as u16) << 10;
        Record { step: 0, cke: !matches!(command, Sre | Pde), pins: pins_of(command), ba, a }
    }

    pub fn issue(&mut self, record: Record, edge: i64) {
        let record = Record { step: edge - self.now(), ..record };
        self.section.extend(record.write());
        self.past.push(Event::after(&self.past, &record));
    }

    /// For each rule the first edge at which it lets the record pass; 0 where it asks nothing.
    pub fn least_edges(&self, record: &Record) -> [i64; 31] {
        let (header, past) = (&self.header, &self.past[..]);
        let event = Event::after(past, &Record { step: 1, ..*record });
        let mut edges = [0; 31];
        for rule in SPACINGS {
            let spacing = |earlier: &Event| Some(earlier.edge + needed(header, *rule, earlier, &event)?);
            let recent = past.iter().rev().take_while(|earlier| event.edge - earlier.edge <= LONGEST_SPACING);
            edges[*rule as usize] = recent.filter_map(spacing).max().unwrap_or(0);
        }
        let covered: Vec<u8> = (0..8).filter(|bank| covers(&event, *bank)).collect();
        let start_of = |banks: &[u8]| latest_start(header, past, banks).map(|(start, _)| start);
        let before_rule_5 = start_of(&banks_of_rule_5(&event));
        edges[2] = before_rule_5.or(start_of(&covered)).unwrap_or(0);
        edges[5] = before_rule_5.map_or(0, |start| start + header.t_rp());
        if event.command == Act {
            edges[8] = fourth_act_back(past).map_or(0, |fourth| fourth.edge + header.t_faw());
        }
        edges
    }

    pub fn least_edge(&self, record: &Record) -> i64 {
        self.least_edges(record).into_iter().fold(self.now() + 1, i64::max)
    }

    pub fn debt(&self) -> i64 {
        debt_at(&self.header, &self.past, self.now())
    }

    /// The edge at which 25 breaks when no REF comes, if the clock is awake. It runs on in power-down.
    fn debt_deadline(&self) -> Option<i64> {
        let into_interval = awake_at(&self.past, self.now()) % self.header.t_refi();
        let deadline = self.now() - into_interval + (9 - self.debt()) * self.header.t_refi();
        (!asleep_after(&self.past)).then_some(deadline)
    }

    pub fn longest_open(&self) -> Option<u8> {
        self.open_banks().into_iter().min_by_key(|bank| self.bank(*bank).activation().map(|act| act.edge))
    }

    /// The edge at which 24 breaks when no PRE comes.
    fn open_deadline(&self) -> Option<i64> {
        let act = self.bank(self.longest_open()?).activation()?;
        Some(act.edge + self.header.greatest_t_ras() + 1)
    }

    /// The edge at which 31 breaks when no REF comes, if the clock is awake.
    pub fn gap_deadline(&self) -> Option<i64> {
        (!asleep_after(&self.past)).then(|| gap_deadline(&self.header, &self.past, self.now()))
    }

    /// The next deadline and its rule. 28 is never the next: in power-down too no REF comes, and the last is older than the
    /// entry.
    pub fn deadline(&self) -> Option<(i64, u8)> {
        let open = self.open_deadline().map(|edge| (edge, 24));
        let debt = self.debt_deadline().map(|edge| (edge, 25));
        let gap = self.gap_deadline().map(|edge| (edge, 31));
        open.into_iter().chain(debt).chain(gap).min()
    }

    /// The last edge at which a REF is in time: for 25 the edge at which it would break, for 31 the one before.
    fn last_refresh(&self) -> Option<i64> {
        Some(self.debt_deadline()?.min(self.gap_deadline()? - 1))
    }

    /// The first edge at or after this one at which the debt rises, when the clock stays awake.
    pub fn rising(&self, from: i64) -> i64 {
        let last_rising = self.now() - awake_at(&self.past, self.now()) % self.header.t_refi();
        let intervals = (from - last_rising + self.header.t_refi() - 1) / self.header.t_refi();
        last_rising + intervals * self.header.t_refi()
    }

    /// The least edge, one at which the debt rises, or some later one.
    fn wanted_edge(&mut self, least: i64) -> i64 {
        if self.random.chance(self.temper.eager) {
            return least;
        }
        if self.random.chance(15) {
            return (self.rising(least) - self.random.pick(&[0, 0, 1])).max(least);
        }
        let t_refi = self.header.t_refi();
        let down = !cke_after(&self.past);
        let longest = if asleep_after(&self.past) { LONGEST_SLEEP } else { (6 + 3 * down as i64) * t_refi };
        let most = self.random.pick(&[8, 8, 8, 200, 200, t_refi, longest]);
        least + self.random.between(1, most)
    }

    /// An edge at or after the least one, in time for every deadline if that can still be.
    pub fn comfortable_edge(&mut self, record: &Record) -> i64 {
        let least = self.least_edge(record);
        let wanted = self.wanted_edge(least);
        let Some((deadline, rule)) = self.deadline() else { return wanted };
        let last_in_time = match (rule, Event::after(&self.past, record).command) {
            (25 | 31, Ref) => self.last_refresh().unwrap_or(deadline),
            (24, Pre) if record.a >> 10 & 1 == 1 => deadline - 1,
            _ => return wanted.min(deadline - MARGIN).max(least),
        };
        if self.random.chance(10) {
            return last_in_time.max(least);
        }
        wanted.min(last_in_time).max(least)
    }
}
