//! A made-up radio: a room with three paths from sender to receiver, a fourth while someone walks,
//! and two boards that list 56 subcarriers each, in different places and with a ripple of their own.

use std::f64::consts::TAU;

/// Samples a second.
pub const HZ: u64 = 50;

/// A time in which nothing changes.
pub struct Scene {
    pub seconds: u64,
    /// The board's layout.
    pub tag: u8,
    pub walks: bool,
    /// Whether its samples go into the baseline; they are watched otherwise.
    pub calibrates: bool,
}

const fn scene(seconds: u64, tag: u8, walks: bool) -> Scene {
    let calibrates = false;
    Scene {
        seconds,
        tag,
        walks,
        calibrates,
    }
}

/// The old board learns the empty room.
const LEARNT: Scene = Scene {
    calibrates: true,
    ..scene(2, 2, false)
};

/// Three swaps from tag 2 to tag 3. Behind each the room is empty.
pub const SWAPS: [(&str, [Scene; 5]); 3] = [("empty", EMPTY), ("motion", MOTION), ("held", HELD)];

/// In an empty room that is shown as such.
const EMPTY: [Scene; 5] = [
    LEARNT,
    scene(2, 2, false),
    scene(4, 2, true),
    scene(6, 2, false),
    scene(12, 3, false),
];

/// In the midst of motion.
const MOTION: [Scene; 5] = [
    LEARNT,
    scene(2, 2, false),
    scene(4, 2, true),
    scene(0, 2, false),
    scene(16, 3, false),
];

/// While presence is held behind motion.
const HELD: [Scene; 5] = [
    LEARNT,
    scene(2, 2, false),
    scene(4, 2, true),
    scene(2, 2, false),
    scene(16, 3, false),
];

/// A sample as a board reads it.
#[derive(Clone, Copy)]
pub struct Heard {
    pub calibrates: bool,
    pub tag: u8,
    /// In microseconds.
    pub at: u64,
    /// 64 entries, imaginary before real.
    pub iq: [i8; 128],
}

/// All samples of these scenes, the same each time.
pub fn heard(scenes: &[Scene]) -> Vec<Heard> {
    let mut noise = Noise(0x9E37_79B9_7F4A_7C15);
    let samples = scenes.iter().flat_map(|scene| {
        let count = (scene.seconds * HZ) as usize;
        std::iter::repeat_n(scene, count)
    });
    let times = (0..).map(|k| k * 1_000_000 / HZ);
    let read = |(at, scene): (u64, &Scene)| Heard {
        calibrates: scene.calibrates,
        tag: scene.tag,
        at,
        iq: entries(&mut noise, scene, at),
    };
    times.zip(samples).map(read).collect()
}

/// The same 56 entries in the same order, at the places and under the tag of the first board: a unit
/// that is given these goes by the number of subcarriers alone, which did not change.
pub fn by_number_alone(sample: &Heard) -> Heard {
    if sample.tag == 2 {
        return *sample;
    }
    let places = (4..32).chain(33..61).zip((1..29).chain(36..64));
    let mut moved = Heard {
        tag: 2,
        iq: [0; 128],
        ..*sample
    };
    for (from, to) in places {
        moved.iq[2 * to..][..2].copy_from_slice(&sample.iq[2 * from..][..2]);
    }
    moved
}

struct Noise(u64);

impl Noise {
    /// From -0.5 to 0.5.
    fn next(&mut self) -> f64 {
        self.0 ^= self.0 << 13;
        self.0 ^= self.0 >> 7;
        self.0 ^= self.0 << 17;
        (self.0 >> 11) as f64 / (1_u64 << 53) as f64 - 0.5
    }
}

/// What a board reads at a time.
fn entries(noise: &mut Noise, scene: &Scene, at: u64) -> [i8; 128] {
    let offset = noise.next() * TAU;
    let walker = if scene.walks { 0.15 } else { 0.0 };
    let moved = 9.0 * at as f64 / 1e6;
    // height, delay, turn
    let paths = [
        (1.0, 0.0, 0.0),
        (0.62, 0.085, 0.0),
        (0.3, 0.21, 0.0),
        (walker, 0.13, moved),
    ];
    let mut iq = [0; 128];
    for (entry, pair) in iq.chunks_exact_mut(2).enumerate() {
        let (bin, gain) = board(scene.tag, entry);
        let (mut im, mut re) = (0.0, 0.0);
        for (height, delay, turn) in paths {
            let angle = turn + offset - TAU * delay * bin;
            im += gain * height * angle.sin();
            re += gain * height * angle.cos();
        }
        pair[0] = (45.0 * im + 1.5 * noise.next()).round() as i8;
        pair[1] = (45.0 * re + 1.5 * noise.next()).round() as i8;
    }
    iq
}

/// The subcarrier that stands at an entry, counted from the middle, and the board's gain there. Tag 3
/// lists them from the lowest up, tag 2 from the middle.
fn board(tag: u8, entry: usize) -> (f64, f64) {
    let entry = entry as f64;
    if tag == 3 {
        let bin = entry - 32.0;
        return (bin, 1.0 + 0.25 * (bin / 6.0).cos());
    }
    let bin = if entry < 32.0 { entry } else { entry - 64.0 };
    (bin, 1.0 + 0.08 * (bin / 9.0).sin())
}
