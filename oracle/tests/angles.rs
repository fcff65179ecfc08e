//! What docs/SPEC.md says under "How exact an angle is", and docs/angles.svg, which shows it.

use oracle::errors::{Errors, pairs};
use oracle::picture::draw;
use oracle::{floored, radar::phase};

/// The smaller and the larger distance from an axis.
fn distances(y: i32, x: i32) -> (i32, i32) {
    (y.abs().min(x.abs()), y.abs().max(x.abs()))
}

#[test]
fn the_lean_is_gone() {
    let before = Errors::of(floored::atan2_brad).to_string();
    let after = Errors::of(phase::atan2_brad).to_string();
    assert_eq!(
        before,
        "mean 14.97 (0.082°), largest 40.4 (0.222°), lean -14.96"
    );
    assert_eq!(
        after,
        "mean 7.79 (0.043°), largest 20.5 (0.113°), lean -0.03"
    );
}

/// A pair's angle moves by at most one entry of the table, and by none where the ratio stands in it.
#[test]
fn pairs_that_moved() {
    let moved = |pair: &(i32, i32)| {
        let (y, x) = *pair;
        let by = phase::atan2_brad(y, x).wrapping_sub(floored::atan2_brad(y, x));
        let (lesser, greater) = distances(y, x);
        let stands_there = greater == 0 || lesser * 256 % greater == 0;
        assert!(by.unsigned_abs() <= 41 && (by == 0 || !stands_there));
        by != 0
    };
    assert_eq!(pairs().filter(moved).count(), 30_720);
}

/// No pair of signed bytes has a ratio halfway between two entries.
#[test]
fn no_pair_meets_a_half() {
    for (y, x) in pairs() {
        let (lesser, greater) = distances(y, x);
        assert!(greater == 0 || lesser * 512 % (2 * greater) != greater);
    }
}

#[test]
fn the_picture_is_what_is_drawn() {
    let path = concat!(env!("CARGO_MANIFEST_DIR"), "/../docs/angles.svg");
    assert!(
        std::fs::read_to_string(path).unwrap() == draw(),
        "docs/angles.svg is not what `make angles` draws"
    );
}
