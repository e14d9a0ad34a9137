//! The same rules for speed: a set of trucks is a 32-bit mask.
//!
//! Inside this module truck j is at the bit worth 2 to the (31 - j), so that
//! bits come off a recording in the order they are packed. Plain words have
//! truck j at the bit worth 2 to the j; one is the other reversed.

use crate::bytes;
use crate::cycle::{Cycle, RoundKind};
use crate::fleet::{record_refused, Fleet, Heard, Sent, State, Truck, PLACES};
use crate::recording::{Header, OwnBit, Plain};

const FIRST: u32 = 1 << 31;

/// The bit of truck i.
#[inline]
fn place(i: usize) -> u32 {
    FIRST >> i
}

/// The bits of the trucks below n, for n from 1 to 32.
#[inline]
fn below(n: usize) -> u32 {
    u32::MAX << (32 - n)
}

/// The trucks of a mask, lowest number first.
struct Trucks(u32);

impl Iterator for Trucks {
    type Item = usize;

    #[inline]
    fn next(&mut self) -> Option<usize> {
        if self.0 == 0 {
            return None;
        }
        let i = self.0.leading_zeros() as usize;
        self.0 &= !place(i);
        Some(i)
    }
}

/// Takes bits off the front of a slice.
struct BitReader<'a> {
    bytes: &'a [u8],
    place: usize,
}

impl BitReader<'_> {
    /// The 32 bits from the place on, the first one on top, 0 past the end.
    #[inline]
    fn peek(&self) -> u32 {
        let first = self.place / 8;
        let window = match self.bytes.get(first..first + 8) {
            Some(eight) => u64::from_be_bytes(eight.try_into().unwrap()),
            None => {
                let mut eight = [0; 8];
                let rest = self.bytes.get(first..).unwrap_or(&[]);
                eight[..rest.len()].copy_from_slice(rest);
                u64::from_be_bytes(eight)
            }
        };
        ((window << (self.place % 8)) >> 32) as u32
    }

    /// The next n bits, `mask` being the bits of the trucks below n.
    #[inline]
    fn take(&mut self, n: usize, mask: u32) -> u32 {
        let bits = self.peek() & mask;
        self.place += n;
        bits
    }
}

/// Puts bits into a slice that is long enough, from its front on.
struct BitWriter<'a> {
    bytes: &'a mut [u8],
    written: usize,
    /// Bits not yet written, the first one on top.
    held: u64,
    count: usize,
}

impl BitWriter<'_> {
    /// Adds the top n bits, for n up to 32; the bits below them are 0.
    #[inline]
    fn put(&mut self, n: usize, bits: u32) {
        self.held |= ((bits as u64) << 32) >> self.count;
        self.count += n;
        if self.count >= 32 {
            let four = ((self.held >> 32) as u32).to_be_bytes();
            self.bytes[self.written..self.written + 4].copy_from_slice(&four);
            self.written += 4;
            self.held <<= 32;
            self.count -= 32;
        }
    }

    /// Writes what is held and answers the number of bytes.
    fn finish(mut self) -> usize {
        while self.count > 0 {
            self.bytes[self.written] = (self.held >> 56) as u8;
            self.written += 1;
            self.held <<= 8;
            self.count = self.count.saturating_sub(8);
        }
        self.written
    }
}

/// Refusals 1 to 5.
fn check_frame(bytes: &[u8]) -> Result<Header, u8> {
    let [first, second, ..] = *bytes else {
        return Err(1);
    };
    let n = (first >> 2) as usize;
    if n == 0 || n > 32 {
        return Err(2);
    }
    let rounds = (first as usize & 3) << 8 | second as usize;
    if rounds > 400 {
        return Err(3);
    }
    let header = Header { n, rounds };
    if bytes.len() != header.total_bytes() {
        return Err(4);
    }
    let left = 8 * bytes.len() - header.total_bits();
    if bytes[bytes.len() - 1] & ((1u8 << left) - 1) != 0 {
        return Err(5);
    }
    Ok(header)
}

/// Refusals 1 to 6.
pub fn check(bytes: &[u8]) -> Result<Header, u8> {
    let header = check_frame(bytes)?;
    let n = header.n;
    for index in 0..header.rounds {
        let mut at = header.loss_place(index, 0, 0);
        for _ in 0..n {
            if bytes[at / 8] & (0x80 >> (at % 8)) != 0 {
                return Err(6);
            }
            at += n + 1;
        }
    }
    Ok(header)
}

/// Where refusal 6 finds an own loss bit of a recording.
pub fn own_bit(bytes: &[u8]) -> Option<OwnBit> {
    let header = check_frame(bytes).ok()?;
    let n = header.n;
    for index in 0..header.rounds {
        let mut at = header.loss_place(index, 0, 0);
        for truck in 0..n {
            if bytes[at / 8] & (0x80 >> (at % 8)) != 0 {
                return Some(OwnBit { round: index as u16 + 1, truck: truck as u8 });
            }
            at += n + 1;
        }
    }
    None
}

/// The lowest truck whose own loss bit is 1 in the words of one round.
fn own_truck(round: &[u32]) -> Option<u8> {
    let own = round[3..].iter().enumerate().fold(0, |own, (i, row)| own | row & 1 << i);
    (own != 0).then_some(own.trailing_zeros() as u8)
}

/// Where refusal 6 finds an own loss bit of plain rounds that are written.
pub fn write_own_bit(n: u64, rounds: u64, openings: &[u8], words: &[u32]) -> Option<OwnBit> {
    let header = check_shape(n, rounds, openings, words).ok()?;
    let rounds = words.chunks_exact(3 + header.n);
    rounds.zip(1..).find_map(|(round, number)| {
        let truck = own_truck(round)?;
        Some(OwnBit { round: number, truck })
    })
}

/// Where refusal 6 finds an own loss bit of one round.
pub fn round_own_bit(n: u32, round: u32, words: &[u32]) -> Option<OwnBit> {
    if n == 0 || n > 32 || round == 0 || round > 400 {
        return None;
    }
    let n = n as usize;
    if words.len() != 3 + n || any_bit(words) & high_bits(n) != 0 {
        return None;
    }
    Some(OwnBit { round: round as u16, truck: own_truck(words)? })
}

/// What grading wants to know of each running truck in each round.
trait Judge {
    fn judge(&mut self, round: u16, sent: u32, heard: u32, marked: bool);
}

/// Nothing is judged.
struct NoJudge;

impl Judge for NoJudge {
    #[inline]
    fn judge(&mut self, _: u16, _: u32, _: u32, _: bool) {}
}

/// First rounds that break complete, majority, zero, accurate.
struct Grades([u16; 4]);

impl Judge for Grades {
    #[inline]
    fn judge(&mut self, round: u16, sent: u32, heard: u32, marked: bool) {
        let misses = heard != sent;
        if marked {
            if !misses {
                self.note(3, round);
            }
        } else if misses {
            self.note(0, round);
            if 2 * heard.count_ones() <= sent.count_ones() {
                self.note(1, round);
            }
            if heard == 0 {
                self.note(2, round);
            }
        }
    }
}

impl Grades {
    #[inline]
    fn note(&mut self, class: usize, round: u16) {
        if self.0[class] == 0 {
            self.0[class] = round;
        }
    }
}

/// One round with truck 0 on top of each mask.
struct Round {
    stop: u32,
    active: u32,
    mark: u32,
    rows: [u32; 32],
}

/// A fleet under way in one of the cycles.
trait Course {
    const CYCLE: Cycle;

    /// A fleet of n before round 1.
    fn started(n: usize, openings: impl Iterator<Item = u8>) -> Self;

    /// A fleet with an accepted record.
    fn resumed(fleet: &Fleet) -> Self;

    /// The next round.
    fn round(&mut self, round: &Round, judge: &mut impl Judge);

    /// The record.
    fn finish(self) -> Fleet;
}

/// The record of n trucks before round 1.
fn opened(n: usize, openings: impl Iterator<Item = u8>) -> Fleet {
    let mut fleet = Fleet { n: n as u8, ..Fleet::blank() };
    for (truck, opening) in fleet.trucks.iter_mut().zip(openings) {
        *truck = Truck::opened(opening);
    }
    fleet
}

/// The values that are sent, least first, each with its senders; and how many
/// they are.
#[inline]
fn values_sent(fleet: &Fleet, sent: u32) -> ([(u8, u32); 16], usize) {
    let mut senders_of = [0u32; 16];
    for i in Trucks(sent) {
        senders_of[fleet.trucks[i].estimate as usize] |= place(i);
    }
    let mut values = [(0u8, 0u32); 16];
    let mut count = 0;
    for (value, senders) in senders_of.into_iter().enumerate() {
        if senders != 0 {
            values[count] = (value as u8, senders);
            count += 1;
        }
    }
    (values, count)
}

/// Stops the trucks of a mask in a round.
#[inline]
fn stop(fleet: &mut Fleet, trucks: u32, number: u16) {
    for i in Trucks(trucks) {
        fleet.trucks[i].state = State::Stopped(number);
    }
}

/// Adds 1 to the count of each truck of a mask: to all places at once, which
/// takes less time than one truck after the other.
#[inline]
fn count(counts: &mut [u8; PLACES], trucks: u32) {
    for (i, count) in counts.iter_mut().enumerate() {
        *count += u8::from(trucks & place(i) != 0);
    }
}

/// A fleet under way: its record, its states and memory as masks, and how many
/// messages were sent. The memory and the counts in the record are brought up
/// to date at the end only.
struct Play {
    fleet: Fleet,
    running: u32,
    marked: u32,
    one: u32,
    several: u32,
    proposals: [u8; PLACES],
    vetoes: [u8; PLACES],
}

impl Course for Play {
    const CYCLE: Cycle = Cycle::TwoRound;

    fn started(n: usize, openings: impl Iterator<Item = u8>) -> Play {
        Play { running: below(n), ..Play::of(opened(n, openings)) }
    }

    fn resumed(fleet: &Fleet) -> Play {
        let mut play = Play::of(*fleet);
        for (i, truck) in fleet.trucks_below_n().iter().enumerate() {
            play.proposals[i] = truck.sent.proposals;
            play.vetoes[i] = truck.sent.vetoes;
            if truck.state == State::Running {
                play.running |= place(i);
            }
            if truck.mark {
                play.marked |= place(i);
            }
            match truck.heard {
                Heard::Nothing => {}
                Heard::One => play.one |= place(i),
                Heard::Several => play.several |= place(i),
            }
        }
        play
    }

    fn finish(mut self) -> Fleet {
        for (i, truck) in self.fleet.trucks[..self.fleet.n as usize].iter_mut().enumerate() {
            truck.sent = Sent { proposals: self.proposals[i], vetoes: self.vetoes[i] };
            truck.mark = self.marked & place(i) != 0;
            truck.heard = if self.several & place(i) != 0 {
                Heard::Several
            } else if self.one & place(i) != 0 {
                Heard::One
            } else {
                Heard::Nothing
            };
        }
        self.fleet
    }

    #[inline]
    fn round(&mut self, round: &Round, judge: &mut impl Judge) {
        self.fleet.done += 1;
        let number = self.fleet.done;
        stop(&mut self.fleet, self.running & round.stop, number);
        self.running &= !round.stop;
        if number % 2 == 1 {
            self.proposal(number, round, judge);
        } else {
            self.veto(number, round, judge);
        }
    }
}

impl Play {
    /// A fleet of which only the record is known.
    fn of(fleet: Fleet) -> Play {
        let counts = [0; PLACES];
        Play { fleet, running: 0, marked: 0, one: 0, several: 0, proposals: counts, vetoes: counts }
    }

    fn proposal(&mut self, number: u16, round: &Round, judge: &mut impl Judge) {
        let sent = self.running & round.active;
        count(&mut self.proposals, sent);
        let (values, count) = values_sent(&self.fleet, sent);
        let values = &values[..count];
        for i in Trucks(self.running) {
            let own = place(i);
            let heard = sent & (!round.rows[i] | own);
            let marked = round.mark & own != 0;
            judge.judge(number, sent, heard, marked);
            let Some((least, senders)) = values.iter().find(|v| v.1 & heard != 0) else {
                continue;
            };
            if heard & !senders != 0 {
                self.several |= own;
            } else {
                self.one |= own;
            }
            if !marked {
                self.fleet.trucks[i].estimate = *least;
            }
        }
        self.marked = round.mark & self.running;
    }

    fn veto(&mut self, number: u16, round: &Round, judge: &mut impl Judge) {
        let sent = self.running & (self.marked | self.several);
        count(&mut self.vetoes, sent);
        let may_decide = self.one & !round.mark;
        let mut decided = 0;
        for i in Trucks(self.running) {
            let own = place(i);
            let heard = sent & (!round.rows[i] | own);
            judge.judge(number, sent, heard, round.mark & own != 0);
            if heard == 0 && may_decide & own != 0 {
                self.fleet.trucks[i].state = State::Decided(number);
                decided |= own;
            }
        }
        self.running &= !decided;
        self.marked = 0;
        self.one = 0;
        self.several = 0;
    }
}

/// A fleet under way in the six-round cycle. Willingness in the record is
/// brought up to date at the end only; the memory and the counts stay.
struct SixPlay {
    fleet: Fleet,
    running: u32,
    unwilling: u32,
}

impl Course for SixPlay {
    const CYCLE: Cycle = Cycle::SixRound;

    fn started(n: usize, openings: impl Iterator<Item = u8>) -> SixPlay {
        SixPlay { fleet: opened(n, openings), running: below(n), unwilling: 0 }
    }

    fn resumed(fleet: &Fleet) -> SixPlay {
        let mut play = SixPlay { fleet: *fleet, running: 0, unwilling: 0 };
        for (i, truck) in fleet.trucks_below_n().iter().enumerate() {
            if truck.state == State::Running {
                play.running |= place(i);
            }
            if truck.unwilling {
                play.unwilling |= place(i);
            }
        }
        play
    }

    fn finish(mut self) -> Fleet {
        for (i, truck) in self.fleet.trucks[..self.fleet.n as usize].iter_mut().enumerate() {
            truck.unwilling = self.unwilling & place(i) != 0;
        }
        self.fleet
    }

    #[inline]
    fn round(&mut self, round: &Round, judge: &mut impl Judge) {
        self.fleet.done += 1;
        let number = self.fleet.done;
        stop(&mut self.fleet, self.running & round.stop, number);
        self.running &= !round.stop;
        self.unwilling &= self.running;
        match Cycle::SixRound.round_kind(number) {
            RoundKind::Bit(worth) => self.bit(number, worth, round, judge),
            RoundKind::Accept => self.accept(number, round, judge),
            _ => self.prepare(number, round, judge),
        }
    }
}

impl SixPlay {
    fn prepare(&mut self, number: u16, round: &Round, judge: &mut impl Judge) {
        let sent = self.running & round.active;
        let (values, count) = values_sent(&self.fleet, sent);
        let values = &values[..count];
        for i in Trucks(self.running) {
            let own = place(i);
            let heard = sent & (!round.rows[i] | own);
            let marked = round.mark & own != 0;
            judge.judge(number, sent, heard, marked);
            if !marked {
                if let Some((least, _)) = values.iter().find(|v| v.1 & heard != 0) {
                    self.fleet.trucks[i].estimate = *least;
                }
            }
        }
        self.unwilling = 0;
    }

    fn bit(&mut self, number: u16, worth: u8, round: &Round, judge: &mut impl Judge) {
        let mut sent = 0;
        for i in Trucks(self.running) {
            if self.fleet.trucks[i].estimate & worth != 0 {
                sent |= place(i);
            }
        }
        for i in Trucks(self.running) {
            let own = place(i);
            let heard = sent & (!round.rows[i] | own);
            let marked = round.mark & own != 0;
            judge.judge(number, sent, heard, marked);
            if sent & own == 0 && (heard != 0 || marked) {
                self.unwilling |= own;
            }
        }
    }

    fn accept(&mut self, number: u16, round: &Round, judge: &mut impl Judge) {
        let sent = self.unwilling;
        let mut decided = 0;
        for i in Trucks(self.running) {
            let own = place(i);
            let heard = sent & (!round.rows[i] | own);
            let marked = round.mark & own != 0;
            judge.judge(number, sent, heard, marked);
            // An unwilling truck hears its own veto.
            if heard == 0 && !marked {
                self.fleet.trucks[i].state = State::Decided(number);
                decided |= own;
            }
        }
        self.running &= !decided;
        self.unwilling = 0;
    }
}

/// Plays a recording through in one pass; refusal 6 is met on the way.
fn play<C: Course>(bytes: &[u8], judge: &mut impl Judge) -> Result<Fleet, u8> {
    let Header { n, rounds } = check_frame(bytes)?;
    let mask = below(n);
    let mut reader = BitReader { bytes, place: 16 };
    let mut play = C::started(n, (0..n).map(|_| (reader.take(4, below(4)) >> 28) as u8));
    let mut round = Round { stop: 0, active: 0, mark: 0, rows: [0; 32] };
    for _ in 0..rounds {
        round.stop = reader.take(n, mask);
        round.active = reader.take(n, mask);
        round.mark = reader.take(n, mask);
        let mut own = 0;
        for (i, row) in round.rows[..n].iter_mut().enumerate() {
            *row = reader.take(n, mask);
            own |= *row & place(i);
        }
        if own != 0 {
            return Err(6);
        }
        play.round(&round, judge);
    }
    Ok(play.finish())
}

/// Runs a recording.
pub fn run(bytes: &[u8]) -> (u8, Fleet) {
    run_by::<Play>(bytes)
}

/// The same in the six-round cycle.
pub fn run_six(bytes: &[u8]) -> (u8, Fleet) {
    run_by::<SixPlay>(bytes)
}

fn run_by<C: Course>(bytes: &[u8]) -> (u8, Fleet) {
    match play::<C>(bytes, &mut NoJudge) {
        Ok(fleet) => (0, fleet),
        Err(refusal) => (refusal, Fleet::blank()),
    }
}

/// Grades a recording.
pub fn grade(bytes: &[u8]) -> Result<[u16; 4], u8> {
    grade_by::<Play>(bytes)
}

/// The same in the six-round cycle.
pub fn grade_six(bytes: &[u8]) -> Result<[u16; 4], u8> {
    grade_by::<SixPlay>(bytes)
}

fn grade_by<C: Course>(bytes: &[u8]) -> Result<[u16; 4], u8> {
    let mut grades = Grades([0; 4]);
    play::<C>(bytes, &mut grades)?;
    Ok(grades.0)
}

/// One step.
pub fn step(fleet: &Fleet, words: &[u32]) -> (u8, Fleet) {
    step_by::<Play>(fleet, words)
}

/// The same in the six-round cycle.
pub fn step_six(fleet: &Fleet, words: &[u32]) -> (u8, Fleet) {
    step_by::<SixPlay>(fleet, words)
}

fn step_by<C: Course>(fleet: &Fleet, words: &[u32]) -> (u8, Fleet) {
    if record_refused(C::CYCLE, fleet) {
        return (7, *fleet);
    }
    if fleet.done == 400 {
        return (14, *fleet);
    }
    let n = fleet.n as usize;
    let mut rows = [0; 32];
    let mut own = 0;
    if words.len() != 3 + n || any_bit(words) & high_bits(n) != 0 {
        return (8, *fleet);
    }
    for (i, (row, word)) in rows.iter_mut().zip(&words[3..]).enumerate() {
        *row = word.reverse_bits();
        own |= *row & place(i);
    }
    if own != 0 {
        return (6, *fleet);
    }
    let [stop, active, mark] = [0, 1, 2].map(|k| words[k].reverse_bits());
    let mut play = C::resumed(fleet);
    play.round(&Round { stop, active, mark, rows }, &mut NoJudge);
    (0, play.finish())
}

/// One step of a record lent as bytes.
pub fn step_bytes(lent: &mut [u8], words: &[u32]) -> u8 {
    bytes::step(lent, words, step)
}

/// The same in the six-round cycle.
pub fn step_bytes_six(lent: &mut [u8], words: &[u32]) -> u8 {
    bytes::step(lent, words, step_six)
}

/// All bits set in some word.
fn any_bit(words: &[u32]) -> u32 {
    words.iter().fold(0, |all, word| all | word)
}

/// The bits of plain words that no truck below n has, for n from 1 to 32.
fn high_bits(n: usize) -> u32 {
    !(u32::MAX >> (32 - n))
}

/// Reads a recording to plain form, into lent buffers.
pub fn read_into(bytes: &[u8], openings: &mut [u8], words: &mut [u32]) -> Result<Header, u8> {
    let header = check(bytes)?;
    let n = header.n;
    if openings.len() < n || words.len() < header.total_words() {
        return Err(9);
    }
    unpack(bytes, header, &mut openings[..n], &mut words[..header.total_words()]);
    Ok(header)
}

fn unpack(bytes: &[u8], header: Header, openings: &mut [u8], words: &mut [u32]) {
    let mask = below(header.n);
    let mut reader = BitReader { bytes, place: 16 };
    for opening in openings {
        *opening = (reader.take(4, below(4)) >> 28) as u8;
    }
    for word in words {
        *word = reader.take(header.n, mask).reverse_bits();
    }
}

/// Reads a recording to plain form.
pub fn read(bytes: &[u8]) -> Result<Plain, u8> {
    let header = check(bytes)?;
    let mut openings = vec![0; header.n];
    let mut words = vec![0; header.total_words()];
    unpack(bytes, header, &mut openings, &mut words);
    Ok(Plain { n: header.n, rounds: header.rounds, openings, words })
}

/// Refusals 2, 3, 7, 8.
fn check_shape(n: u64, rounds: u64, openings: &[u8], words: &[u32]) -> Result<Header, u8> {
    if n == 0 || n > 32 {
        return Err(2);
    }
    if rounds > 400 {
        return Err(3);
    }
    let header = Header { n: n as usize, rounds: rounds as usize };
    let n = header.n;
    if openings.len() != n || openings.iter().any(|o| *o > 15) {
        return Err(7);
    }
    if words.len() != header.total_words() || any_bit(words) & high_bits(n) != 0 {
        return Err(8);
    }
    Ok(header)
}

/// Refusals 2, 3, 7, 8, 6.
fn check_writing(n: u64, rounds: u64, openings: &[u8], words: &[u32]) -> Result<Header, u8> {
    let header = check_shape(n, rounds, openings, words)?;
    for round in words.chunks_exact(3 + header.n) {
        let own = round[3..].iter().enumerate().fold(0, |own, (i, row)| own | row & 1 << i);
        if own != 0 {
            return Err(6);
        }
    }
    Ok(header)
}

/// Writes a plain form into a lent buffer, answers the number of bytes.
pub fn write_into(
    n: u64,
    rounds: u64,
    openings: &[u8],
    words: &[u32],
    buffer: &mut [u8],
) -> Result<usize, u8> {
    let header = check_writing(n, rounds, openings, words)?;
    if buffer.len() < header.total_bytes() {
        return Err(9);
    }
    Ok(pack(header, openings, words, buffer))
}

fn pack(header: Header, openings: &[u8], words: &[u32], buffer: &mut [u8]) -> usize {
    let mut writer = BitWriter { bytes: buffer, written: 0, held: 0, count: 0 };
    writer.put(6, (header.n as u32) << 26);
    writer.put(10, (header.rounds as u32) << 22);
    for opening in openings {
        writer.put(4, (*opening as u32) << 28);
    }
    for word in words {
        writer.put(header.n, word.reverse_bits());
    }
    writer.finish()
}

/// Writes a plain form as a recording.
pub fn write(n: u64, rounds: u64, openings: &[u8], words: &[u32]) -> Result<Vec<u8>, u8> {
    let header = check_writing(n, rounds, openings, words)?;
    let mut buffer = vec![0; header.total_bytes()];
    pack(header, openings, words, &mut buffer);
    Ok(buffer)
}

/// The opening crusher by binary64 estimates.
pub fn opening(lengths: &[u16], metres: &[u16], seconds: &[u16]) -> Result<u8, u8> {
    let roads = lengths.len();
    if roads == 0 || roads > 16 || metres.len() != roads || seconds.len() != roads {
        return Err(10);
    }
    if seconds.iter().any(|s| *s > 3_600) {
        return Err(11);
    }
    if metres.iter().zip(seconds).any(|(m, s)| *m > 0 && *s == 0) {
        return Err(12);
    }
    let mut best = None;
    let mut least = f64::INFINITY;
    for (k, ((length, metres), seconds)) in lengths.iter().zip(metres).zip(seconds).enumerate() {
        let time = if *length == 0 {
            0.0
        } else if *metres == 0 {
            continue;
        } else {
            f64::from(*length) * f64::from(*seconds) / f64::from(*metres)
        };
        if time < least {
            least = time;
            best = Some(k as u8);
        }
    }
    best.ok_or(13)
}
