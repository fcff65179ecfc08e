//! The room's three calls against the plain room: `compare_room [seed] [calls]`.
//!
//! Lists of calls with any settings go through the unit and through the plain room: streams split
//! at random, answer space of every size, refused beginnings and runs between. Every slice is lent
//! between guard pages. A list that differs is cut down and printed.

mod lengths;
mod lists;

use std::process::ExitCode;

use compare_room::unit::Guarded;
use lists::{Bench, Tally, replay, shrunk};
use oracle::argument;
use oracle::calls::{Call, Host, Plain};
use oracle::differ::Differ;
use oracle::layout::{ANSWER_LEN, memory_len, settings_to_bytes};
use oracle::lent;
use oracle::random::Random;
use oracle::room::RECORD_LEN;
use oracle::settings::Settings;
use oracle::streams::{full, steady, stream};

/// Answers asked for, for each call asked for.
const ANSWERS_A_CALL: u64 = 10;

fn main() -> ExitCode {
    lent::say_what_was_touched();
    let (seed, calls) = (argument(1, 1), argument(2, 20_000));
    let mut random = Random::new(seed);
    let mut differ = Differ::new("room_memory_len", seed);
    lengths::compare(&mut differ, &mut random, 300_000);
    let lengths = differ.finish();

    println!("room: seed {seed}");
    let (mut unit, mut tally) = (Guarded::default(), Tally::default());
    let mut failed = fixed(&mut unit, &mut tally, every_space(&mut random))
        .or_else(|| fixed(&mut unit, &mut tally, until_full(&mut random)))
        .or_else(|| fixed(&mut unit, &mut tally, longest(&mut random)));
    while failed.is_none() && (tally.calls < calls || tally.answers < ANSWERS_A_CALL * calls) {
        let list = random.word();
        lent::now(list);
        failed = made_up(&mut unit, &mut tally, list);
    }
    println!("room: {tally}");
    if let Some(calls) = failed {
        show(&mut unit, &calls);
        return ExitCode::FAILURE;
    }
    println!("room: 0 differences");
    lengths
}

/// A list that a host makes up; the list, if it fails.
fn made_up(unit: &mut Guarded, tally: &mut Tally, seed: u64) -> Option<Vec<Call>> {
    let random = &mut Random::new(seed);
    let (mut host, first) = Host::new(random);
    let mut bench = Bench::new(unit, tally);
    let mut calls = vec![first];
    for _ in 0..random.between(1, 60) {
        let call = calls.last().unwrap();
        if bench.step(call, &host.reply(call)).is_err() {
            return Some(calls);
        }
        calls.push(host.call(random));
    }
    None
}

/// A list made beforehand; the list, if it fails.
fn fixed(unit: &mut Guarded, tally: &mut Tally, calls: Vec<Call>) -> Option<Vec<Call>> {
    let Some(Call::Begin { settings, memory }) = calls.first() else {
        unreachable!("a list begins with a beginning");
    };
    let mut plain = Plain::begin(settings, *memory).expect("it is accepted");
    let mut bench = Bench::new(unit, tally);
    let fails = calls
        .iter()
        .any(|call| bench.step(call, &plain.reply(call)).is_err());
    fails.then_some(calls)
}

fn beginning(settings: &Settings) -> Call {
    Call::Begin {
        settings: settings_to_bytes(settings),
        memory: memory_len(settings),
    }
}

/// The same stream with every answer space, from none to more than enough.
fn every_space(random: &mut Random) -> Vec<Call> {
    let settings = Settings {
        w: 3,
        n: 4,
        ..Settings::roomlines()
    };
    let memory = memory_len(&settings);
    let records = stream(random, 12);
    let most = ANSWER_LEN * (records.len() / RECORD_LEN + 2).min(40);
    let runs = (0..=most).flat_map(|space| {
        let records = records.clone();
        let run = Call::Run {
            records,
            space,
            memory,
        };
        [beginning(&settings), run]
    });
    runs.collect()
}

/// A stream that calibrates until no more is taken, in runs of any length.
fn until_full(random: &mut Random) -> Vec<Call> {
    let settings = Settings {
        w: 2,
        n: 4,
        ..Settings::roomlines()
    };
    in_runs(random, &settings, &full(), 20_000)
}

/// The longest windows, filled; then half filled again behind another tag.
fn longest(random: &mut Random) -> Vec<Call> {
    let settings = Settings {
        w: 8192,
        n: 512,
        ..Settings::roomlines()
    };
    let mut records = steady(random, 4, true, 8300);
    records.extend(steady(random, 4, false, 500));
    records.extend(steady(random, 1, true, 5000));
    in_runs(random, &settings, &records, 3000)
}

/// A beginning, and runs of at most so many records.
fn in_runs(random: &mut Random, settings: &Settings, records: &[u8], most: u64) -> Vec<Call> {
    let mut calls = vec![beginning(settings)];
    let mut rest = records;
    while !rest.is_empty() {
        let most = RECORD_LEN * random.between(1, most) as usize;
        let (run, behind) = rest.split_at(most.min(rest.len()));
        calls.push(Call::Run {
            records: run.to_vec(),
            space: run.len(),
            memory: memory_len(settings),
        });
        rest = behind;
    }
    calls
}

/// Where the list fails; then the list cut down.
fn show(unit: &mut Guarded, calls: &[Call]) {
    let Some((index, why)) = replay(unit, calls) else {
        println!(
            "room: a list of {} calls differed, but not again",
            calls.len()
        );
        return;
    };
    println!(
        "room: a list of {} calls differs at call {index}: {why}",
        calls.len()
    );
    let calls = shrunk(unit, calls);
    println!("cut down:");
    for call in &calls {
        println!("  {call}");
    }
    if let Some((index, why)) = replay(unit, &calls) {
        println!("call {index}: {why}");
    }
}
