//! The replay program of document 01 in Rust, with the refusal of leftovers, the writeback reservations, the sum of
//! steps and the yields by forecast of document 02's Points 5, 6, 9 and 11, written for speed: what the bench holds
//! `replay` against.
//!
//! Lines are read where they lie in one block of input, and output leaves in one block, so memory is the same
//! for any script and any line. All domains are handled at once by bit masks (bit n is number n), and masks
//! and sums are kept from slot to slot.

use std::fs::File;
use std::io::{self, ErrorKind, Read, Write};
use std::process::ExitCode;

const RECORD: usize = 16;
const LONGEST_PLAN: usize = 1024;
const MOST_SLOTS: u16 = 4096;

/// The most bytes that a line of either form has, byte 10 included: `s `, 17 digits, byte 10.
const LONGEST_LINE: usize = 20;
const INPUT_BLOCK: usize = 1 << 16;
const OUTPUT_BLOCK: usize = 1 << 16;
/// No output line is as long as this: 16 domains of at most 23 bytes, four numbers and byte 10.
const LONGEST_OUTPUT: usize = 512;

/// Numbers: 0 is best effort, 1 to 16 are domains, 17 stands for an idle slot.
const IDLE: usize = 17;
/// How many numbers are asked in a whole round, as in an idle slot.
const ROUND: u32 = 17;
const BEST_EFFORT_BIT: u32 = 1;
const DOMAIN_BITS: u32 = 0x1fffe;

// ---------------------------------------------------------------------------------------------- plan

#[derive(Clone, Copy)]
struct Domain {
    number: usize,
    reservation: u16,
    reclaim_cap: u16,
    writeback_cap: u16,
    writeback_reservation: u16,
    /// It yields by forecast.
    marked: bool,
}

struct Plan {
    period: u16,
    /// In ascending number.
    domains: Vec<Domain>,
}

struct PlanRefusal {
    number: u32,
    place: usize,
}

fn refuse<T>(number: u32, place: usize) -> Result<T, PlanRefusal> {
    Err(PlanRefusal { number, place })
}

fn u16_at(bytes: &[u8], at: usize) -> u16 {
    u16::from_le_bytes([bytes[at], bytes[at + 1]])
}

fn any_set(bytes: &[u8]) -> bool {
    bytes.iter().any(|&b| b != 0)
}

fn read_plan(file: &[u8]) -> Result<Plan, PlanRefusal> {
    if file.is_empty() || file.len() % RECORD != 0 || file.len() > LONGEST_PLAN {
        return refuse(1, 0);
    }
    let records: Vec<&[u8]> = file.chunks_exact(RECORD).collect();
    let period = u16_at(records[0], 0);
    if period == 0 || period > MOST_SLOTS {
        return refuse(2, 0);
    }
    if any_set(&records[0][4..]) {
        return refuse(3, 0);
    }
    let mut taken = [false; LONGEST_PLAN / RECORD];
    let mut by_number: [Option<Domain>; 17] = [None; 17];
    let mut index = u16_at(records[0], 2) as usize;
    while index != 0 {
        if index >= records.len() {
            return refuse(4, index);
        }
        if taken[index] {
            return refuse(5, index);
        }
        taken[index] = true;
        let record = records[index];
        let domain = Domain {
            number: record[2] as usize,
            reservation: u16_at(record, 4),
            reclaim_cap: u16_at(record, 6),
            writeback_cap: u16_at(record, 8),
            writeback_reservation: u16_at(record, 10),
            marked: record[3] == 1,
        };
        if domain.number == 0 || domain.number > 16 {
            return refuse(6, index);
        }
        if by_number[domain.number].is_some() {
            return refuse(7, index);
        }
        if record[3] > 1 || any_set(&record[12..]) {
            return refuse(8, index);
        }
        if domain.reservation > period
            || domain.reclaim_cap > period
            || domain.writeback_cap > period
        {
            return refuse(9, index);
        }
        if domain.writeback_reservation > domain.writeback_cap {
            return refuse(11, index);
        }
        by_number[domain.number] = Some(domain);
        index = u16_at(record, 0) as usize;
    }
    let domains: Vec<Domain> = by_number.iter().flatten().copied().collect();
    let reserved = |d: &Domain| d.reservation as u32 + d.writeback_reservation as u32;
    if domains.iter().map(reserved).sum::<u32>() > period as u32 {
        return refuse(10, 0);
    }
    // Leftovers: records off the chain, from 1 up, that are not all zero.
    for (index, record) in records.iter().enumerate().skip(1) {
        if !taken[index] && any_set(record) {
            return refuse(12, index);
        }
    }
    Ok(Plan { period, domains })
}

/// The bytes of the file `plan`, cut where it is known to be too long. A missing file counts as length 0.
fn plan_bytes() -> io::Result<Vec<u8>> {
    let mut bytes = Vec::new();
    match File::open("plan") {
        Ok(file) => file.take(LONGEST_PLAN as u64 + 1).read_to_end(&mut bytes)?,
        Err(e) if e.kind() == ErrorKind::NotFound => 0,
        Err(e) => return Err(e),
    };
    Ok(bytes)
}

// ------------------------------------------------------------------------------------------- output

/// Output on its way: it is written when the block is nearly full, and at the end.
struct Output {
    block: Vec<u8>,
}

impl Output {
    fn new() -> Output {
        Output {
            block: Vec::with_capacity(OUTPUT_BLOCK),
        }
    }

    fn text(&mut self, text: &str) {
        self.block.extend_from_slice(text.as_bytes());
    }

    fn byte(&mut self, byte: u8) {
        self.block.push(byte);
    }

    fn number(&mut self, n: u32) {
        if n < 10 {
            return self.byte(b'0' + n as u8);
        }
        let mut digits = [0u8; 10];
        let mut from = digits.len();
        let mut rest = n;
        while rest > 0 {
            from -= 1;
            digits[from] = b'0' + (rest % 10) as u8;
            rest /= 10;
        }
        self.block.extend_from_slice(&digits[from..]);
    }

    fn end_line(&mut self) -> io::Result<()> {
        self.byte(b'\n');
        if self.block.len() > OUTPUT_BLOCK - LONGEST_OUTPUT {
            return self.write_out();
        }
        Ok(())
    }

    fn write_out(&mut self) -> io::Result<()> {
        io::stdout().lock().write_all(&self.block)?;
        self.block.clear();
        Ok(())
    }
}

// ---------------------------------------------------------------------------------------- regulator

/// What is kept for a number. `without_claim` counts the slots that took no claim and were no domain's
/// writeback: a domain's reclaimed passes, best effort at 0, idle slots at 17. Reserved passes are Q - claim -
/// yielded, and the writeback claim is the writeback reservation less the writebacks, or 0: neither is kept.
#[derive(Clone, Copy)]
struct Row {
    claim: u32,
    without_claim: u32,
    yielded: u32,
    writebacks: u32,
    reclaim_cap: u32,
    writeback_cap: u32,
    writeback_reservation: u32,
}

/// Caps that no count reaches: for the rows of best effort and of idle slots.
const NO_CAP: u32 = u32::MAX;

const EMPTY_ROW: Row = Row {
    claim: 0,
    without_claim: 0,
    yielded: 0,
    writebacks: 0,
    reclaim_cap: NO_CAP,
    writeback_cap: NO_CAP,
    writeback_reservation: NO_CAP,
};

/// A marked domain, with what it is expected to pass in a period: nothing is known until its first one closes.
struct Forecast {
    number: usize,
    reservation: u32,
    estimate: Option<f64>,
}

impl Forecast {
    /// A period has closed in which it passed so many accesses. Rust rounds each of the three operations by itself.
    fn learn(&mut self, passes: u32) {
        let c = passes as f64;
        self.estimate = Some(match self.estimate {
            None => c,
            Some(z) => z + (c - z) * 0.25,
        });
    }

    /// What it yields at a period's start: its reservation less its need.
    fn spare(&self) -> u32 {
        match self.estimate {
            Some(z) if z <= self.reservation as f64 => self.reservation - z.ceil() as u32,
            _ => 0,
        }
    }
}

struct Regulator {
    plan: Plan,
    planned: u32,
    forecasts: Vec<Forecast>,
    /// A period's beginning but for what is yielded by forecast, so that closing one copies it.
    fresh: Period,
    now: Period,
    closed: u32,
    /// The number asked first; 17 is the same as 0, since no number above 16 passes.
    turn: u32,
}

#[derive(Clone, Copy)]
struct Period {
    left: u32,
    /// Slots left less all claims of both kinds.
    loose: i32,
    stock: u32,
    /// Numbers asked and passed by, over the slots decided.
    steps: u32,
    /// Numbers with claim above 0; with writeback claim above 0; with reclaimed passes below R; with writebacks
    /// below W, and best effort.
    has_claim: u32,
    has_writeback_claim: u32,
    may_reclaim: u32,
    has_room: u32,
    /// 32 long, so that an index of five bits needs no check.
    rows: [Row; 32],
}

fn bit_if(condition: bool, n: usize) -> u32 {
    (condition as u32) << n
}

impl Period {
    /// Moves k of a domain's claim, which has as much, to the stock.
    fn give(&mut self, domain: usize, k: u32) {
        let row = &mut self.rows[domain];
        row.claim -= k;
        row.yielded += k;
        self.stock += k;
        self.loose += k as i32;
        self.has_claim &= !bit_if(row.claim == 0, domain);
    }
}

impl Regulator {
    fn open(plan: Plan) -> Regulator {
        let period = plan.period as u32;
        let mut fresh = Period {
            left: period,
            loose: period as i32,
            stock: 0,
            steps: 0,
            has_claim: 0,
            has_writeback_claim: 0,
            may_reclaim: 0,
            has_room: BEST_EFFORT_BIT,
            rows: [EMPTY_ROW; 32],
        };
        let mut planned = 0;
        let mut forecasts = Vec::new();
        for d in &plan.domains {
            fresh.loose -= d.reservation as i32 + d.writeback_reservation as i32;
            fresh.has_claim |= bit_if(d.reservation > 0, d.number);
            fresh.has_writeback_claim |= bit_if(d.writeback_reservation > 0, d.number);
            fresh.may_reclaim |= bit_if(d.reclaim_cap > 0, d.number);
            fresh.has_room |= bit_if(d.writeback_cap > 0, d.number);
            fresh.rows[d.number] = Row {
                claim: d.reservation as u32,
                reclaim_cap: d.reclaim_cap as u32,
                writeback_cap: d.writeback_cap as u32,
                writeback_reservation: d.writeback_reservation as u32,
                ..EMPTY_ROW
            };
            planned |= 1 << d.number;
            if d.marked {
                forecasts.push(Forecast {
                    number: d.number,
                    reservation: d.reservation as u32,
                    estimate: None,
                });
            }
        }
        Regulator {
            plan,
            planned,
            forecasts,
            fresh,
            now: fresh,
            closed: 0,
            turn: 0,
        }
    }

    fn decided(&self) -> u32 {
        self.plan.period as u32 - self.now.left
    }

    /// Decides a slot whose offers are taken: nobody offers who is not planned. True if it completes the period.
    #[inline(always)]
    fn slot(&mut self, accesses: u32, writebacks: u32) -> bool {
        let p = &mut self.now;
        let on_claim = accesses & p.has_claim | writebacks & p.has_writeback_claim;
        let blocked = p.loose <= 0 && on_claim != 0;
        let reclaiming = if p.stock > 0 { p.may_reclaim } else { 0 };
        // Whoever has writeback claim is below W too.
        let free =
            accesses & (p.has_claim | reclaiming | BEST_EFFORT_BIT) | writebacks & p.has_room;
        let passing = if blocked { on_claim } else { free };

        let from_turn = passing >> self.turn << self.turn;
        let asked = if from_turn != 0 { from_turn } else { passing };
        let n = (asked | 1 << IDLE).trailing_zeros() as usize;
        // The turn moves over the numbers passed by and the granted one. A search that goes round after 16 is a
        // round longer than the turns tell, and so is an idle one, which leaves the turn where it was.
        let round = if from_turn != 0 { 0 } else { ROUND };
        let next = if n == IDLE { self.turn } else { n as u32 + 1 };
        p.steps += round + next - self.turn - (n != IDLE) as u32;
        self.turn = next;

        // Sums of 0 and 1 in place of branches: which kind of pass it is cannot be foreseen.
        let row = &mut p.rows[n & 31];
        let claimed = on_claim >> n & 1;
        let writeback = (writebacks & DOMAIN_BITS) >> n & 1;
        row.claim -= claimed & !writeback;
        row.without_claim += 1 - (claimed | writeback);
        row.writebacks += writeback;
        p.stock -= (accesses & DOMAIN_BITS & !on_claim) >> n & 1;
        p.has_claim &= !bit_if(row.claim == 0, n);
        p.has_writeback_claim &= !bit_if(row.writebacks == row.writeback_reservation, n);
        p.may_reclaim &= !bit_if(row.without_claim == row.reclaim_cap, n);
        p.has_room &= !bit_if(row.writebacks == row.writeback_cap, n);
        p.loose -= 1 - claimed as i32;
        p.left -= 1;
        p.left == 0
    }

    /// Prints the completed period and begins the next.
    fn close(&mut self, out: &mut Output) -> io::Result<()> {
        self.closed += 1;
        let rows = &self.now.rows;
        out.number(self.closed);
        out.byte(b' ');
        out.number(rows[IDLE].without_claim);
        out.byte(b' ');
        out.number(rows[0].without_claim);
        for d in &self.plan.domains {
            let row = &rows[d.number];
            out.byte(b' ');
            out.number(d.number as u32);
            out.byte(b':');
            out.number(d.reservation as u32 - row.claim - row.yielded);
            out.byte(b'+');
            out.number(row.without_claim);
            out.byte(b'-');
            out.number(row.yielded);
            out.byte(b'w');
            out.number(row.writebacks);
        }
        out.text(" s");
        out.number(self.now.steps);
        for f in &mut self.forecasts {
            let row = &rows[f.number];
            f.learn(f.reservation - row.claim - row.yielded + row.without_claim);
        }
        self.now = self.fresh;
        for f in &self.forecasts {
            self.now.give(f.number, f.spare());
        }
        out.end_line()
    }

    /// The number a yield is refused with, or 0.
    fn yield_claim(&mut self, domain: usize, k: u32) -> u32 {
        if self.closed == u32::MAX {
            return 34;
        }
        if domain > 16 || self.planned >> domain & 1 == 0 {
            return 21;
        }
        if k == 0 {
            return 22;
        }
        if k > self.now.rows[domain].claim {
            return 23;
        }
        self.now.give(domain, k);
        0
    }
}

// -------------------------------------------------------------------------------------------- lines

enum Line {
    Slot {
        accesses: u32,
        writebacks: u32,
        above_two: bool,
    },
    Yield {
        domain: usize,
        k: u32,
    },
    Bad,
}

/// Bit i is the lowest bit of byte i: the product moves it to bit 56 + i, and no two terms meet.
fn gather(lanes: u64) -> u32 {
    ((lanes & 0x0101_0101_0101_0101).wrapping_mul(0x0102_0408_1020_4080) >> 56) as u32
}

/// Masks of a slot line whose digits are all 0 to 2: nearly every line of a long script. None for any other.
#[inline(always)]
fn plain_slot(line: &[u8; LONGEST_LINE]) -> Option<(u32, u32)> {
    let word = |at: usize| {
        u64::from_le_bytes(line[at..at + 8].try_into().unwrap()) ^ 0x3030_3030_3030_3030
    };
    let (low, high, last) = (word(2), word(10), (line[18] ^ b'0') as u64);
    let every = low | high | last;
    let threes = low & low >> 1 | high & high >> 1 | last & last >> 1;
    let is_plain = every & 0xfcfc_fcfc_fcfc_fcfc == 0 && threes & 0x0101_0101_0101_0101 == 0;
    if !is_plain || line[0] != b's' || line[1] != b' ' || line[19] != b'\n' {
        return None;
    }
    let accesses = gather(low) | gather(high) << 8 | (last as u32 & 1) << 16;
    let writebacks = gather(low >> 1) | gather(high >> 1) << 8 | (last as u32 >> 1) << 16;
    Some((accesses, writebacks))
}

/// The number that `digits` write; None if there are none, more than `most`, or a byte that is no digit.
fn decimal(digits: &[u8], most: usize) -> Option<u32> {
    if digits.is_empty() || digits.len() > most || !digits.iter().all(u8::is_ascii_digit) {
        return None;
    }
    Some(digits.iter().fold(0, |n, d| n * 10 + (d - b'0') as u32))
}

/// Any line, without its byte 10.
fn read_line(line: &[u8]) -> Line {
    if let Some(digits) = line.strip_prefix(b"s ") {
        if digits.len() != 17 || !digits.iter().all(u8::is_ascii_digit) {
            return Line::Bad;
        }
        let mask = |digit: u8| {
            digits
                .iter()
                .enumerate()
                .fold(0, |m, (n, &d)| m | bit_if(d == digit, n))
        };
        let above_two = digits.iter().any(|&d| d > b'2');
        return Line::Slot {
            accesses: mask(b'1'),
            writebacks: mask(b'2'),
            above_two,
        };
    }
    if let Some(rest) = line.strip_prefix(b"y ") {
        if let Some(space) = rest.iter().position(|&b| b == b' ') {
            let (domain, k) = (decimal(&rest[..space], 2), decimal(&rest[space + 1..], 4));
            if let (Some(domain), Some(k)) = (domain, k) {
                return Line::Yield {
                    domain: domain as usize,
                    k,
                };
            }
        }
    }
    Line::Bad
}

/// Carries a line out; the number it is refused with, or 0.
fn carry_out(regulator: &mut Regulator, line: &[u8], out: &mut Output) -> io::Result<u32> {
    match read_line(line) {
        Line::Bad => Ok(41),
        Line::Yield { domain, k } => Ok(regulator.yield_claim(domain, k)),
        Line::Slot { .. } if regulator.closed == u32::MAX => Ok(34),
        Line::Slot {
            above_two: true, ..
        } => Ok(32),
        Line::Slot {
            accesses,
            writebacks,
            ..
        } => {
            if (accesses | writebacks) & DOMAIN_BITS & !regulator.planned != 0 {
                return Ok(33);
            }
            if regulator.slot(accesses, writebacks) {
                regulator.close(out)?;
            }
            Ok(0)
        }
    }
}

// ------------------------------------------------------------------------------------------- script

fn read_some(input: &mut impl Read, block: &mut [u8]) -> io::Result<usize> {
    loop {
        match input.read(block) {
            Err(e) if e.kind() == ErrorKind::Interrupted => continue,
            answer => return answer,
        }
    }
}

/// Runs the script on standard input. If a line is refused: its number from 1, and the refusal.
fn run(regulator: &mut Regulator, out: &mut Output) -> io::Result<Option<(u64, u32)>> {
    let mut input = io::stdin().lock();
    let mut block = vec![0u8; INPUT_BLOCK];
    let (mut at, mut end) = (0, 0);
    let mut taken: u64 = 0;
    let may_offer = regulator.planned | BEST_EFFORT_BIT;
    loop {
        // Plain slot lines, as many as lie whole in the block.
        while let Some(line) = block[at..end].first_chunk::<LONGEST_LINE>() {
            let Some((accesses, writebacks)) = plain_slot(line) else {
                break;
            };
            if (accesses | writebacks) & !may_offer != 0 || regulator.closed == u32::MAX {
                break;
            }
            if regulator.slot(accesses, writebacks) {
                regulator.close(out)?;
            }
            at += LONGEST_LINE;
            taken += 1;
        }
        // One line of any kind. A line of either form ends within 20 bytes, so no more are looked at.
        let rest = &block[at..end];
        let near = &rest[..rest.len().min(LONGEST_LINE)];
        if let Some(length) = near.iter().position(|&b| b == b'\n') {
            taken += 1;
            let refused = carry_out(regulator, &near[..length], out)?;
            if refused != 0 {
                return Ok(Some((taken, refused)));
            }
            at += length + 1;
            continue;
        }
        if near.len() == LONGEST_LINE {
            return Ok(Some((taken + 1, 41)));
        }
        block.copy_within(at..end, 0);
        end -= at;
        at = 0;
        let more = read_some(&mut input, &mut block[end..])?;
        if more == 0 {
            return Ok(if end > 0 { Some((taken + 1, 41)) } else { None });
        }
        end += more;
    }
}

fn replay() -> io::Result<()> {
    let mut out = Output::new();
    match read_plan(&plan_bytes()?) {
        Err(refusal) => {
            out.text("plan refused ");
            out.number(refusal.number);
            out.text(" at ");
            out.number(refusal.place as u32);
        }
        Ok(plan) => {
            let mut regulator = Regulator::open(plan);
            out.text("period idle best domains\n");
            match run(&mut regulator, &mut out)? {
                None => {
                    out.text("open ");
                    out.number(regulator.decided());
                }
                Some((line, number)) => {
                    out.text(&format!("line {line} refused {number}"));
                }
            }
        }
    }
    out.byte(b'\n');
    out.write_out()
}

fn main() -> ExitCode {
    match replay() {
        Ok(()) => ExitCode::SUCCESS,
        Err(e) => {
            eprintln!("baseline: {e}");
            ExitCode::FAILURE
        }
    }
}
