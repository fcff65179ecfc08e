//! What docs/swap.svg shows: behind a swap the room is empty; by the number of subcarriers alone it
//! is shown as taken, and this unit warms up and says absent.

#[allow(dead_code)]
#[path = "../examples/swap/radio.rs"]
mod radio;

use radio::{HZ, Heard, SWAPS, Scene};
use volkjarp::{Answer, Room, Sample, Settings, Verdict};

/// Samples of a window, in the presets.
const W: usize = 50;

/// What the unit says of each sample behind the swap: the verdict, and whether a fall is suspected.
fn behind(scenes: &[Scene], samples: &[Heard]) -> Vec<(Verdict, bool)> {
    let mut room = Room::new(&Settings::new(HZ as u32)).unwrap();
    let answers = samples.iter().map(|heard| {
        let sample = Sample {
            tag: heard.tag,
            at: heard.at,
            iq: heard.iq,
            ..Sample::default()
        };
        match heard.calibrates {
            true => room.calibrate(&sample),
            false => room.watch(&sample),
        }
    });
    let before = scenes.iter().take_while(|scene| scene.tag == 2);
    let before = before.map(|scene| scene.seconds * HZ).sum::<u64>() as usize;
    let said = answers.skip(before).map(|answer| match answer {
        Answer::Watched { verdict, fall, .. } => (verdict, fall),
        other => panic!("{other}"),
    });
    said.collect()
}

#[test]
fn an_empty_room_behind_a_swap() {
    for (name, scenes) in SWAPS {
        let heard = radio::heard(&scenes);
        let unit = behind(&scenes, &heard);
        let (warm, then) = unit.split_at(W - 1);
        assert!(warm.iter().all(|said| *said == (Verdict::Warming, false)));
        assert!(then.iter().all(|said| *said == (Verdict::Absent, false)));

        let alone: Vec<Heard> = heard.iter().map(radio::by_number_alone).collect();
        let alone = behind(&scenes, &alone);
        let present = alone.iter().take_while(|said| said.0 == Verdict::Present);
        assert!(present.count() as u64 > 3 * HZ, "{name}");
        let falls = alone.iter().filter(|said| said.1).count();
        assert_eq!(falls, usize::from(name != "empty"), "{name}");
    }
}
