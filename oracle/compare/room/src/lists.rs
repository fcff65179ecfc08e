//! A list of calls, each held against the plain room's reply and against what a call may write.

use std::collections::BTreeMap;
use std::fmt;
use std::time::{Duration, Instant};

use compare_room::unit::{Guarded, Ran};
use oracle::calls::{Call, Plain, Reply, cut};
use oracle::layout::{ANSWER_LEN, answer_to_bytes};
use oracle::memory;
use oracle::room::{Answer, Return};

/// The time for cutting a failing list down.
const PATIENCE: Duration = Duration::from_secs(60);

/// What was compared.
#[derive(Default)]
pub struct Tally {
    pub lists: u64,
    pub calls: u64,
    pub answers: u64,
    seen: BTreeMap<String, u64>,
}

impl Tally {
    fn saw(&mut self, what: &str) {
        match self.seen.get_mut(what) {
            Some(count) => *count += 1,
            None => drop(self.seen.insert(what.into(), 1)),
        }
    }
}

impl fmt::Display for Tally {
    fn fmt(&self, f: &mut fmt::Formatter<'_>) -> fmt::Result {
        let Tally {
            lists,
            calls,
            answers,
            seen,
        } = self;
        write!(f, "{lists} lists, {calls} calls, {answers} answers; ")?;
        let seen: Vec<String> = seen.iter().map(|(what, n)| format!("{what} {n}")).collect();
        write!(f, "{}", seen.join(", "))
    }
}

/// A unit whose calls are compared. Its memory holds at first what no unit wrote.
pub struct Bench<'a> {
    unit: &'a mut Guarded,
    tally: &'a mut Tally,
    memory: Vec<u8>,
    steps: usize,
}

impl<'a> Bench<'a> {
    pub fn new(unit: &'a mut Guarded, tally: &'a mut Tally) -> Self {
        tally.lists += 1;
        Bench {
            unit,
            tally,
            memory: Vec::new(),
            steps: 0,
        }
    }

    /// Makes the call; what is wrong with its reply or with what it wrote.
    pub fn step(&mut self, call: &Call, reply: &Reply) -> Result<(), String> {
        self.steps += 1;
        self.tally.calls += 1;
        match (call, reply) {
            (Call::Begin { settings, memory }, Reply::Begin(due)) => {
                self.begin(settings, *memory, *due)
            }
            (
                Call::Run {
                    records,
                    space,
                    memory,
                },
                Reply::Run(answers, end),
            ) => self.run(records, *space, *memory, answers, *end),
            _ => Err("a reply to another call".into()),
        }
    }

    /// The first `len` bytes of the memory.
    fn lend(&mut self, len: usize) -> Vec<u8> {
        for at in self.memory.len()..len {
            self.memory.push((at * 151 + self.steps) as u8);
        }
        self.memory[..len].to_vec()
    }

    fn begin(&mut self, settings: &[u8], len: usize, due: u8) -> Result<(), String> {
        let before = self.lend(len);
        let refusal = self.unit.begin(settings, &mut self.memory[..len]);
        self.tally.saw(&format!("beginnings {refusal}"));
        same("beginning", &due, &refusal)?;
        let after = &self.memory[..len];
        if refusal != 0 {
            return unchanged("memory on a refused beginning", &before, after);
        }
        if !memory::legal(after) {
            return Err("a beginning left memory out of range".into());
        }
        // It writes every byte: whatever stood there, the same stands there after.
        let mut other: Vec<u8> = before.iter().map(|byte| !byte).collect();
        same(
            "second beginning",
            &0,
            &self.unit.begin(settings, &mut other),
        )?;
        unchanged("memory by what stood there", after, &other)
    }

    fn run(
        &mut self,
        records: &[u8],
        space: usize,
        len: usize,
        due: &[Answer],
        end: Return,
    ) -> Result<(), String> {
        let before = self.lend(len);
        let blank: Vec<u8> = (0..space).map(|at| (at * 89 + self.steps) as u8).collect();
        let mut answers = blank.clone();
        let memory = &mut self.memory[..len];
        let ran = self.unit.run(memory, records, &mut answers);
        self.tally.answers += ran.answers as u64;
        self.tally.saw(&format!("runs {}", ran.refusal));
        same("run", &Ran::from(end), &ran)?;
        for (index, (answer, ours)) in due.iter().zip(answers.chunks(ANSWER_LEN)).enumerate() {
            self.tally.saw(&name(answer));
            let bytes = answer_to_bytes(answer);
            if bytes != ours {
                return Err(format!(
                    "answer {index} is {answer:?}\n  rust  {bytes:02x?}\n  ours  {ours:02x?}"
                ));
            }
        }
        let written = ANSWER_LEN * ran.answers;
        let what = "answer space past the answers";
        unchanged(what, &blank[written..], &answers[written..])?;
        if due
            .iter()
            .all(|answer| matches!(answer, Answer::Refused { .. }))
        {
            unchanged("memory though nothing was accepted", &before, memory)?;
        } else if self.steps.is_multiple_of(16) && !memory::legal(memory) {
            return Err("a run left memory out of range".into());
        }
        Ok(())
    }
}

fn name(answer: &Answer) -> String {
    match answer {
        Answer::Refused { number, .. } => format!("refused {number}"),
        Answer::Watch(watched) if watched.fall.is_some() => "falls".into(),
        Answer::Watch(watched) if watched.breathing.or(watched.heart).is_some() => "rates".into(),
        Answer::Watch(_) => "watched".into(),
        Answer::Calibrate { .. } => "calibrated".into(),
        Answer::Reset => "reset".into(),
    }
}

fn same<T: PartialEq + fmt::Debug>(what: &str, due: &T, ours: &T) -> Result<(), String> {
    if due == ours {
        return Ok(());
    }
    Err(format!("{what}\n  rust  {due:?}\n  ours  {ours:?}"))
}

fn unchanged(what: &str, before: &[u8], after: &[u8]) -> Result<(), String> {
    if before == after {
        return Ok(());
    }
    let at = before.iter().zip(after).position(|(b, a)| b != a);
    Err(format!("{what} changed, first at byte {at:?}"))
}

/// The first call that fails, and why. The first call is to be an accepted beginning.
pub fn replay(unit: &mut Guarded, calls: &[Call]) -> Option<(usize, String)> {
    let Some(Call::Begin { settings, memory }) = calls.first() else {
        return None;
    };
    let mut plain = Plain::begin(settings, *memory).ok()?;
    let mut tally = Tally::default();
    let mut bench = Bench::new(unit, &mut tally);
    calls.iter().enumerate().find_map(|(index, call)| {
        let why = bench.step(call, &plain.reply(call)).err()?;
        Some((index, why))
    })
}

/// A failing list with calls left out, then records, as long as it fails and there is time.
pub fn shrunk(unit: &mut Guarded, calls: &[Call]) -> Vec<Call> {
    let until = Instant::now() + PATIENCE;
    let mut calls = calls.to_vec();
    if let Some((last, _)) = replay(unit, &calls) {
        calls.truncate(last + 1);
    }
    let mut fails = |calls: &[Call]| replay(unit, calls).is_some();
    calls = fewer(&calls, until, &mut fails);
    for index in 0..calls.len() {
        let Call::Run {
            records,
            space,
            memory,
        } = calls[index].clone()
        else {
            continue;
        };
        let with = |parts: &[&[u8]]| {
            let mut calls = calls.clone();
            calls[index] = Call::Run {
                records: parts.concat(),
                space,
                memory,
            };
            calls
        };
        let least = fewer(&cut(&records), until, &mut |parts| fails(&with(parts)));
        calls = with(&least);
    }
    calls
}

/// The list without parts that it fails without, tried until a time: halves first, single ones last.
fn fewer<T: Clone>(list: &[T], until: Instant, fails: &mut dyn FnMut(&[T]) -> bool) -> Vec<T> {
    let mut list = list.to_vec();
    let mut size = list.len();
    while size > 0 {
        let mut at = 0;
        while at < list.len() && Instant::now() < until {
            let mut less = list.clone();
            less.drain(at..(at + size).min(list.len()));
            if fails(&less) {
                list = less;
            } else {
                at += size;
            }
        }
        size /= 2;
    }
    list
}
