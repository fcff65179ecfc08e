//! The three calls.

use oracle::lent::{Lent, Side};
use oracle::room::Return;

#[repr(C)]
#[derive(Debug, Clone, Copy, PartialEq, Eq)]
pub struct MemoryLen {
    pub refusal: u8,
    pub len: usize,
}

#[repr(C)]
#[derive(Debug, Clone, Copy, PartialEq, Eq)]
pub struct Ran {
    pub refusal: u8,
    pub need: usize,
    pub answers: usize,
    pub used: usize,
}

/// What a run refused by 2 returns.
pub const REFUSED: Ran = Ran {
    refusal: 2,
    need: 0,
    answers: 0,
    used: 0,
};

impl From<Return> for Ran {
    fn from(end: Return) -> Ran {
        Ran {
            refusal: end.refusal,
            need: end.need,
            answers: end.answers,
            used: end.used,
        }
    }
}

unsafe extern "C" {
    fn room_memory_len(settings: *const u8, settings_len: usize) -> MemoryLen;
    fn room_begin(
        settings: *const u8,
        settings_len: usize,
        memory: *mut u8,
        memory_len: usize,
    ) -> u8;
    fn room_run(
        memory: *mut u8,
        memory_len: usize,
        records: *const u8,
        records_len: usize,
        answers: *mut u8,
        answers_len: usize,
    ) -> Ran;
}

pub fn memory_len(settings: &[u8]) -> MemoryLen {
    // SAFETY: the pointer and length are those of a slice, which the call reads.
    unsafe { room_memory_len(settings.as_ptr(), settings.len()) }
}

pub fn begin(settings: &[u8], memory: &mut [u8]) -> u8 {
    // SAFETY: both are slices; the call reads the first and writes the second.
    unsafe {
        room_begin(
            settings.as_ptr(),
            settings.len(),
            memory.as_mut_ptr(),
            memory.len(),
        )
    }
}

pub fn run(memory: &mut [u8], records: &[u8], answers: &mut [u8]) -> Ran {
    // SAFETY: all three are slices; the call writes the first and the last and reads the other.
    unsafe {
        room_run(
            memory.as_mut_ptr(),
            memory.len(),
            records.as_ptr(),
            records.len(),
            answers.as_mut_ptr(),
            answers.len(),
        )
    }
}

/// The calls with every slice against a guard, by turns at its end and at its front.
pub struct Guarded {
    settings: Lent,
    memory: Lent,
    records: Lent,
    answers: Lent,
    side: Side,
}

impl Default for Guarded {
    fn default() -> Self {
        Guarded {
            settings: Lent::new(1),
            memory: Lent::new(1),
            records: Lent::new(1),
            answers: Lent::new(1),
            side: Side::Front,
        }
    }
}

impl Guarded {
    fn turn(&mut self) -> Side {
        self.side = match self.side {
            Side::Front => Side::Back,
            Side::Back => Side::Front,
        };
        self.side
    }

    pub fn begin(&mut self, settings: &[u8], memory: &mut [u8]) -> u8 {
        let side = self.turn();
        let given = self.settings.lend(settings, side);
        let lent = self.memory.lend(memory, side);
        let refusal = begin(given, lent);
        assert_eq!(given, settings, "a beginning wrote its settings");
        memory.copy_from_slice(lent);
        refusal
    }

    pub fn run(&mut self, memory: &mut [u8], records: &[u8], answers: &mut [u8]) -> Ran {
        let side = self.turn();
        let lent = self.memory.lend(memory, side);
        let given = self.records.lend(records, side);
        let space = self.answers.lend(answers, side);
        let ran = run(lent, given, space);
        assert!(given == records, "a run wrote its records");
        memory.copy_from_slice(lent);
        answers.copy_from_slice(space);
        ran
    }
}
