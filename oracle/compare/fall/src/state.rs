//! The Rust's private state, read from how it prints; `shown` prints ours the same way.

use oracle::Micros;
use oracle::radar::fall::FallConfig;

use crate::calls::Words;

#[derive(Debug)]
#[allow(dead_code)]
enum Phase {
    Idle,
    Active {
        since: Micros,
        quiet_since: Option<Micros>,
    },
    Burst {
        at: Micros,
        peak: u16,
    },
    Settling {
        burst_at: Micros,
        peak: u16,
        still_since: Micros,
    },
    Refractory {
        until: Micros,
    },
}

#[derive(Debug)]
#[allow(dead_code)]
struct FallDetector {
    config: FallConfig,
    phase: Phase,
    events: u32,
}

pub fn shown(config: FallConfig, words: &Words, events: u32) -> String {
    let &Words { tag, peak, a, b } = words;
    let (a, b) = (Micros(a), Micros(b));
    let phase = match tag {
        0 => Phase::Idle,
        1 => Phase::Active {
            since: a,
            quiet_since: None,
        },
        2 => Phase::Active {
            since: a,
            quiet_since: Some(b),
        },
        3 => Phase::Burst { at: a, peak },
        4 => Phase::Settling {
            burst_at: a,
            peak,
            still_since: b,
        },
        5 => Phase::Refractory { until: a },
        _ => return format!("{words:?}"),
    };
    let detector = FallDetector {
        config,
        phase,
        events,
    };
    format!("{detector:?}")
}

/// Whether a state has these words: what its tag does not use is 0.
pub fn legal(words: &Words) -> bool {
    let &Words { tag, peak, a, b } = words;
    let used = [
        [false, false, false],
        [false, true, false],
        [false, true, true],
        [true, true, false],
        [true, true, true],
        [false, true, false],
    ];
    used.get(usize::from(tag))
        .is_some_and(|[p, x, y]| (*p || peak == 0) && (*x || a == 0) && (*y || b == 0))
}
