//! The pair census, and what docs/census.svg says of it.

#[path = "../examples/census/picture.rs"]
mod picture;
#[path = "../examples/swap/svg.rs"]
mod svg;

use picture::{CUT, GROUP};
use volkjarp::{AMPLITUDES, Census, SECTORS, census};

const PAIRS: u32 = 65_536;

/// Every pair of signed bytes, imaginary part first.
fn pairs() -> impl Iterator<Item = (i32, i32)> {
    (-128..128).flat_map(|im| (-128..128).map(move |re| (im, re)))
}

fn amplitude((im, re): (i32, i32)) -> usize {
    (16 * (im * im + re * re)).isqrt() as usize
}

/// The sector of a pair's true direction; one between two sectors is in the sector that it begins.
/// (0, 0) is in the first.
fn sector((mut im, mut re): (i32, i32)) -> usize {
    let mut sector = 0;
    // back by quarters of a turn, into the first
    while (im, re) != (0, 0) && (im < 0 || re <= 0) {
        (im, re) = (-re, im);
        sector += 2;
    }
    sector + usize::from(im > 0 && im >= re)
}

/// How many of these pairs are in each sector.
fn by_sector(pairs: impl Iterator<Item = (i32, i32)>) -> [u32; SECTORS] {
    let mut counts = [0; SECTORS];
    pairs.for_each(|pair| counts[sector(pair)] += 1);
    counts
}

#[test]
fn both_lists_have_every_pair() {
    let census = census();
    assert_eq!(census.amplitude.iter().sum::<u32>(), PAIRS);
    assert_eq!(census.sector.iter().sum::<u32>(), PAIRS);
    assert_eq!((census.amplitude[0], census.amplitude[724]), (1, 1));
}

/// The angle's error takes no pair into another sector.
#[test]
fn counts_by_the_definitions() {
    let mut due = Census {
        amplitude: [0; AMPLITUDES],
        sector: by_sector(pairs()),
    };
    pairs().for_each(|pair| due.amplitude[amplitude(pair)] += 1);
    assert!(census() == due);
}

#[test]
fn why_sectors_differ() {
    let lowest = |pair: &(i32, i32)| pair.0.min(pair.1) == -128;
    let others = |pair: &(i32, i32)| !lowest(pair) && *pair != (0, 0);
    assert_eq!(by_sector(pairs().filter(others)), [8128; SECTORS]);
    let zero = [1, 0, 0, 0, 0, 0, 0, 0];
    assert_eq!(by_sector([(0, 0)].into_iter()), zero);
    let edges = [0, 0, 0, 127, 128, 128, 128, 0];
    assert_eq!(by_sector(pairs().filter(lowest)), edges);
}

#[test]
fn counts_rise_as_far_as_circles_lie_whole() {
    let whole = |pair: &(i32, i32)| amplitude(*pair) < CUT;
    assert!(pairs().filter(whole).all(|(im, re)| im.min(re) > -128));
    assert_eq!(amplitude((0, -128)), CUT);

    let means = picture::means(&census().amplitude);
    let (rising, falling) = means.split_at(CUT / GROUP);
    assert!(rising.is_sorted_by(|a, b| a < b));
    assert!(falling.is_sorted_by(|a, b| a > b) && rising.last() > falling.first());
}

#[test]
fn the_picture_is_what_is_drawn() {
    let path = concat!(env!("CARGO_MANIFEST_DIR"), "/../docs/census.svg");
    assert!(
        std::fs::read_to_string(path).unwrap() == picture::draw(&census()),
        "docs/census.svg is not what `make census-picture` draws"
    );
}
