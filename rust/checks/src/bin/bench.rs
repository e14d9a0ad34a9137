//! The library and the fast plain Rust reading side by side, in one process, on the same inputs. Prints a table; nothing here is a test.

use checks::inputs::{self, Input, Step};
use oracle::bytes::{record_bytes, RECORD};
use oracle::{fast, gen, Cycle, Plain};
use std::hint::black_box;
use std::time::Instant;

/// How many calls make a batch of some milliseconds.
fn batch(call: &mut impl FnMut()) -> u32 {
    let mut calls = 1;
    while once(calls, call) * f64::from(calls) < 2e6 {
        calls *= 2;
    }
    calls
}

/// The time of one call in nanoseconds, over a batch.
fn once(calls: u32, call: &mut impl FnMut()) -> f64 {
    let begun = Instant::now();
    for _ in 0..calls {
        call();
    }
    begun.elapsed().as_nanos() as f64 / f64::from(calls)
}

/// The least time of one call of each. Batches of the two take turns, so that a slow spell of the machine meets both.
fn times(mut ours: impl FnMut(), mut plain: impl FnMut()) -> (f64, f64) {
    let calls = (batch(&mut ours), batch(&mut plain));
    let mut least = (f64::INFINITY, f64::INFINITY);
    for _ in 0..10 {
        least.0 = least.0.min(once(calls.0, &mut ours));
        least.1 = least.1.min(once(calls.1, &mut plain));
    }
    least
}

/// Nanoseconds as microseconds, with a place more where there is less than one.
fn microseconds(time: f64) -> String {
    let places = if time < 1000.0 { 3 } else { 2 };
    format!("{:.places$}", time / 1000.0)
}

/// The table's rows. A further pass over the same inputs keeps the least times, since a slow spell of the machine may outlast a row.
#[derive(Default)]
struct Table {
    rows: Vec<(String, usize, f64, f64)>,
    next: usize,
}

impl Table {
    fn row(&mut self, what: &str, rounds: usize, (ours, plain): (f64, f64)) {
        match self.rows.get_mut(self.next) {
            Some(row) => {
                row.2 = row.2.min(ours);
                row.3 = row.3.min(plain);
            }
            None => self.rows.push((what.to_string(), rounds, ours, plain)),
        }
        self.next += 1;
    }

    fn print(&self) {
        println!("| what | library, µs | plain Rust, µs | ratio | library, ns a round |");
        println!("|---|---|---|---|---|");
        for (what, rounds, ours, plain) in &self.rows {
            let each =
                if *rounds == 0 { String::new() } else { format!("{:.1}", ours / *rounds as f64) };
            println!(
                "| {what} | {} | {} | {:.2} | {each} |",
                microseconds(*ours),
                microseconds(*plain),
                ours / plain
            );
        }
    }
}

/// What is behind a call's name in a row.
fn of(cycle: Cycle) -> &'static str {
    match cycle {
        Cycle::TwoRound => "",
        Cycle::SixRound => " of six",
    }
}

fn run(table: &mut Table, cycle: Cycle, input: &Input, rounds: usize) {
    let plain = match cycle {
        Cycle::TwoRound => fast::run,
        Cycle::SixRound => fast::run_six,
    };
    let mut record = [0u8; RECORD];
    table.row(
        &format!("run{}, {}", of(cycle), input.what),
        rounds,
        times(
            || {
                black_box(checks::run(cycle, black_box(&input.bytes), &mut record));
            },
            || {
                black_box(plain(black_box(&input.bytes)));
            },
        ),
    );
}

fn grade(table: &mut Table, cycle: Cycle, input: &Input, rounds: usize) {
    let plain = match cycle {
        Cycle::TwoRound => fast::grade,
        Cycle::SixRound => fast::grade_six,
    };
    let mut grades = [0u16; 4];
    table.row(
        &format!("grade{}, {}", of(cycle), input.what),
        rounds,
        times(
            || {
                black_box(checks::grade(cycle, black_box(&input.bytes), &mut grades));
            },
            || {
                black_box(plain(black_box(&input.bytes)).ok());
            },
        ),
    );
}

fn read(table: &mut Table, input: &Input, rounds: usize) {
    let mut openings = [0u8; 32];
    let mut words = vec![0u32; 400 * 35];
    let (mut plain_openings, mut plain_words) = (openings, words.clone());
    let (mut n, mut r) = (0, 0);
    table.row(
        &format!("read, {}", input.what),
        rounds,
        times(
            || {
                black_box(checks::read(
                    black_box(&input.bytes),
                    &mut openings,
                    &mut words,
                    &mut n,
                    &mut r,
                ));
            },
            || {
                black_box(
                    fast::read_into(black_box(&input.bytes), &mut plain_openings, &mut plain_words)
                        .ok(),
                );
            },
        ),
    );
}

fn write(table: &mut Table, input: &Input, plain: &Plain) {
    let mut buffer = vec![0u8; input.bytes.len()];
    let mut plain_buffer = buffer.clone();
    let mut written = 0;
    table.row(
        &format!("write, {}", input.what),
        plain.rounds,
        times(
            || {
                let (n, r) = (plain.n as u32, plain.rounds as u32);
                black_box(checks::write(
                    n,
                    r,
                    black_box(&plain.openings),
                    &plain.words,
                    &mut buffer,
                    &mut written,
                ));
            },
            || {
                let (n, r) = (plain.n as u64, plain.rounds as u64);
                black_box(
                    fast::write_into(
                        n,
                        r,
                        black_box(&plain.openings),
                        &plain.words,
                        &mut plain_buffer,
                    )
                    .ok(),
                );
            },
        ),
    );
}

/// Running, grading, reading and writing one recording.
fn recording(table: &mut Table, input: &Input) {
    let plain = fast::read(&input.bytes).expect("an accepted recording");
    run(table, Cycle::TwoRound, input, plain.rounds);
    grade(table, Cycle::TwoRound, input, plain.rounds);
    read(table, input, plain.rounds);
    write(table, input, &plain);
}

/// Running and grading one in the six-round cycle.
fn recording_of_six(table: &mut Table, input: &Input) {
    let rounds = fast::check(&input.bytes).expect("an accepted recording").rounds;
    run(table, Cycle::SixRound, input, rounds);
    grade(table, Cycle::SixRound, input, rounds);
}

/// One step, bytes to bytes on both sides; and beside plain Rust's step of a record that needs no bytes. The record is copied for each call.
fn step(table: &mut Table, input: &Step) {
    let cycle = input.cycle;
    let plain = match cycle {
        Cycle::TwoRound => fast::step,
        Cycle::SixRound => fast::step_six,
    };
    let plain_on_bytes: fn(&mut [u8], &[u32]) -> u8 = match cycle {
        Cycle::TwoRound => fast::step_bytes,
        Cycle::SixRound => fast::step_bytes_six,
    };
    let what = format!("step{}, {}", of(cycle), input.what);
    let record = record_bytes(&input.fleet);
    let ours = || {
        let mut d = record;
        black_box(checks::step(cycle, black_box(&mut d), &input.words));
    };
    let on_bytes = || {
        let mut d = record;
        black_box(plain_on_bytes(black_box(&mut d), &input.words));
    };
    table.row(&what, 1, times(ours, on_bytes));
    let on_record = || {
        black_box(plain(black_box(&input.fleet), &input.words));
    };
    table.row(&format!("{what}, plain Rust without bytes"), 1, times(ours, on_record));
}

/// Where an own loss bit is: of a recording, of its rounds in plain form, and of the last of them.
fn own_loss(table: &mut Table, input: &Input) {
    let bytes = &input.bytes;
    let ours = || {
        black_box(checks::recording_own_loss(black_box(bytes)));
    };
    let plain = || {
        black_box(fast::own_bit(black_box(bytes)));
    };
    table.row(&format!("own loss bit of a recording, {}", input.what), 400, times(ours, plain));

    let mut words = vec![0; 400 * 35];
    words[400 * 35 - 1] = 1 << 31;
    let openings = [0; 32];
    let ours = || {
        black_box(checks::write_own_loss(32, 400, &openings, black_box(&words)));
    };
    let plain = || {
        black_box(fast::write_own_bit(32, 400, &openings, black_box(&words)));
    };
    table.row(&format!("own loss bit of writing, {}", input.what), 400, times(ours, plain));

    let last = &words[399 * 35..];
    let ours = || {
        black_box(checks::round_own_loss(32, 400, black_box(last)));
    };
    let plain = || {
        black_box(fast::round_own_bit(32, 400, black_box(last)));
    };
    table.row("own loss bit of a round, 32 trucks, of the last truck", 1, times(ours, plain));
}

/// An opening crusher by 16 roads.
fn opening(table: &mut Table) {
    let roads =
        gen::Roads::of(&(0..16).map(|k| (900 + k, 300 + 7 * k, 60 + 3 * k)).collect::<Vec<_>>());
    let mut crusher = 0;
    table.row(
        "opening, 16 roads",
        0,
        times(
            || {
                black_box(checks::opening(
                    black_box(&roads.lengths),
                    &roads.metres,
                    &roads.seconds,
                    &mut crusher,
                ));
            },
            || {
                black_box(
                    fast::opening(black_box(&roads.lengths), &roads.metres, &roads.seconds).ok(),
                );
            },
        ),
    );
}

fn main() {
    let mut recordings = inputs::largest();
    recordings.extend(inputs::sizes());
    let steps = inputs::steps();
    let six = inputs::six();
    let steps_of_six = inputs::steps_of_six();
    let own_bit = inputs::own_bit_at_the_end();
    let mut table = Table::default();
    for _ in 0..5 {
        table.next = 0;
        recordings.iter().for_each(|input| recording(&mut table, input));
        steps.iter().for_each(|input| step(&mut table, input));
        opening(&mut table);
        own_loss(&mut table, &own_bit);
        six.iter().for_each(|input| recording_of_six(&mut table, input));
        steps_of_six.iter().for_each(|input| step(&mut table, input));
    }
    table.print();
}
