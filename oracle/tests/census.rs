//! What docs/SPEC.md says under "The pair census", asked of the count that our call is compared with.

use oracle::census::{AMPLITUDES, Census, amplitude, count, sector};
use oracle::errors::pairs;
use oracle::floored;
use oracle::measured::features;
use oracle::radar::csi::MAX_SUBCARRIERS;
use oracle::radar::phase::atan2_brad;

const PAIRS: u32 = 65_536;

/// The tag of the layout that uses all of its entries.
const DENSE: u8 = 4;

#[test]
fn each_list_totals_all_pairs() {
    let Census { amplitude, sector } = count();
    assert_eq!(amplitude.iter().sum::<u32>(), PAIRS);
    assert_eq!(sector.iter().sum::<u32>(), PAIRS);
}

#[test]
fn the_least_and_the_largest_amplitude_have_one_pair() {
    let amplitude = count().amplitude;
    assert_eq!((amplitude[0], amplitude[724]), (1, 1));
}

/// The amplitude that most pairs have, and how many amplitudes no pair has.
#[test]
fn how_evenly_the_scale_is_filled() {
    let amplitude = count().amplitude;
    assert_eq!((amplitude.iter().max(), amplitude[492]), (Some(&280), 280));
    assert_eq!(amplitude.iter().filter(|pairs| **pairs == 0).count(), 35);
}

/// All pairs, as many in a frame as it holds.
#[test]
fn amplitudes_are_those_of_features() {
    let pairs: Vec<(i32, i32)> = pairs().collect();
    let mut counted = [0; AMPLITUDES];
    for frame in pairs.chunks(MAX_SUBCARRIERS) {
        let bytes = |&(im, re): &(i32, i32)| [im as u8, re as u8];
        let iq: Vec<u8> = frame.iter().flat_map(bytes).collect();
        let features = features(&iq, DENSE).unwrap();
        assert_eq!(usize::from(features.count), frame.len());
        for (told, (im, re)) in features.amplitude.map(usize::from).iter().zip(frame) {
            assert_eq!(*told, amplitude(*im, *re));
            counted[*told] += 1;
        }
    }
    assert_eq!(counted, count().amplitude);
}

#[test]
fn sectors_of_angles() {
    let cases = [(0, 0), (8_191, 0), (8_192, 1), (32_767, 3)];
    let negative = [(-32_768, 4), (-24_577, 4), (-24_576, 5), (-1, 7)];
    for (angle, expected) in cases.into_iter().chain(negative) {
        assert_eq!(sector(angle), expected, "{angle}");
    }
    assert_eq!(sector(atan2_brad(0, -1)), 4);
    assert_eq!(sector(atan2_brad(0, 0)), 0);
}

#[test]
fn the_counts_of_the_sectors() {
    let expected = [8_129, 8_128, 8_128, 8_255, 8_256, 8_256, 8_256, 8_128];
    assert_eq!(count().sector, expected);
}

/// The sector that a pair other than (0, 0) truly stands in: it is turned back by quarters into the first one.
fn true_sector(mut y: i32, mut x: i32) -> usize {
    let mut quarters = 0;
    while x <= 0 || y < 0 {
        (y, x) = (-x, y);
        quarters += 1;
    }
    2 * quarters + usize::from(y >= x)
}

/// Every pair is counted where it truly stands, so the counts are the same with the index rounded down.
#[test]
fn no_pair_is_in_another_sector() {
    for (y, x) in pairs().filter(|pair| *pair != (0, 0)) {
        let expected = true_sector(y, x);
        assert_eq!(sector(atan2_brad(y, x)), expected, "({y}, {x})");
        assert_eq!(sector(floored::atan2_brad(y, x)), expected, "({y}, {x})");
    }
}
