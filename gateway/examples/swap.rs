//! A board is swapped for one with as many subcarriers, as a picture:
//! `cargo run --example swap > swap.svg`. A word behind it picks the swap: `empty` (as without a
//! word), `motion` or `held`.
//!
//! The radio is made up (`swap/radio.rs`); every answer is the unit's. The upper band shows detectors
//! that go by the number of subcarriers alone: the unit is given the same samples with the second
//! board's entries at the first board's places and under its tag, so that it sees no boundary.
//! oracle/tests/swap.rs holds that against the Rust's detectors, made once.

use volkjarp::{Answer, Room, Sample, Settings, SettingsError};

#[path = "swap/picture.rs"]
mod picture;
#[path = "swap/radio.rs"]
mod radio;
#[path = "swap/svg.rs"]
mod svg;

use picture::Point;
use radio::{HZ, Heard, SWAPS};

fn main() -> Result<(), Box<dyn std::error::Error>> {
    let word = std::env::args().nth(1).unwrap_or("empty".into());
    let swap = SWAPS.into_iter().find(|(name, _)| *name == word);
    let (_, scenes) = swap.ok_or("the swap is empty, motion or held")?;
    let heard = radio::heard(&scenes);
    let alone: Vec<Heard> = heard.iter().map(radio::by_number_alone).collect();
    let picture = picture::draw(&scenes, &points(&alone)?, &points(&heard)?);
    print!("{picture}");
    Ok(())
}

/// What the unit says of each sample that is watched.
fn points(samples: &[Heard]) -> Result<Vec<Point>, SettingsError> {
    let mut room = Room::new(&Settings::new(HZ as u32))?;
    let mut points = Vec::new();
    for heard in samples {
        let sample = Sample {
            tag: heard.tag,
            rssi: -50,
            channel: 6,
            at: heard.at,
            iq: heard.iq,
        };
        if heard.calibrates {
            room.calibrate(&sample);
        } else if let Answer::Watched {
            verdict,
            permille,
            distance,
            fall,
            ..
        } = room.watch(&sample)
        {
            points.push(Point {
                verdict,
                permille: permille.into(),
                distance: distance.into(),
                fall,
            });
        }
    }
    Ok(points)
}
