//! The picture: the amplitudes as a histogram, the sectors as a rose.

use std::f64::consts::{FRAC_PI_4, FRAC_PI_8};

use volkjarp::{AMPLITUDES, Census, SECTORS};

use crate::svg::Sheet;

/// Colours, of words and of areas: of the histogram and of sectors above the even share; of those
/// below it.
const ABOVE: [&str; 2] = ["#1f5f99", "#cedce9"];
const BELOW: [&str; 2] = ["#8e3b8a", "#e6d4e5"];

const DASHES: &str = "stroke='#444' stroke-dasharray='5 4'";

/// The histogram's sides, and the pairs that its height shows.
const LEFT: f64 = 74.0;
const RIGHT: f64 = 618.0;
const TOP: f64 = 78.0;
const BOTTOM: f64 = 414.0;
const PAIRS: u32 = 350;

/// The amplitudes that are named below it.
const TICKS: [usize; 7] = [0, 128, 256, 384, 512, 640, 724];

/// From this amplitude on circles reach beyond the bytes: 4 · 128.
pub const CUT: usize = 512;

/// The line has the mean of so many counts at a time.
pub const GROUP: usize = 16;

/// The rose: its middle, and the radius of the even share.
const MIDDLE: [f64; 2] = [800.0, 252.0];
const RADIUS: f64 = 136.0;
const EVEN: u32 = 65_536 / SECTORS as u32;

/// How far the axes go beyond it, and how far from the middle the words of a sector stand.
const BEYOND: f64 = 14.0;
const WORDS_AT: f64 = 95.0;

/// Where the words beside it begin and end.
const ROSE_LEFT: f64 = MIDDLE[0] - RADIUS - BEYOND;
const ROSE_RIGHT: f64 = 976.0;

/// Where the words above and below both stand.
const HEADING_AT: f64 = TOP - 12.0;
const BELOW_AT: f64 = BOTTOM + 19.0;

const TITLE: &str = "All 65,536 pairs of signed bytes, by amplitude and by sector of the circle";
const CAPTION: [&str; 2] = [
    "The amplitude is four times a pair's distance from (0, 0), rounded down; the line is the mean of \
     16 counts. Each sector, with the direction that begins it, holds",
    "8,128 of the pairs from −127 to 127 but for (0, 0), which adds 1 to sector 0; −128, with no 128 \
     opposite, adds 127 to sector 3 and 128 each to 4, 5 and 6.",
];

pub fn draw(census: &Census) -> String {
    let mut sheet = Sheet::new(TITLE);
    grid(&mut sheet);
    histogram(&mut sheet, &census.amplitude);
    notes(&mut sheet);
    for (k, count) in census.sector.iter().enumerate() {
        wedge(&mut sheet, k, *count);
    }
    axes(&mut sheet);
    for (k, count) in census.sector.iter().enumerate() {
        words(&mut sheet, k, *count);
    }
    headings(&mut sheet, census);
    legend(&mut sheet);
    sheet.finish(CAPTION)
}

/// The mean of each group of counts; the last group is smaller.
pub fn means(counts: &[u32]) -> Vec<f64> {
    let mean = |group: &[u32]| f64::from(group.iter().sum::<u32>()) / group.len() as f64;
    counts.chunks(GROUP).map(mean).collect()
}

/// Where an amplitude begins; it ends where the next begins.
fn across(amplitude: f64) -> f64 {
    LEFT + (RIGHT - LEFT) * amplitude / AMPLITUDES as f64
}

fn height(pairs: f64) -> f64 {
    BOTTOM - (BOTTOM - TOP) * pairs / f64::from(PAIRS)
}

/// The pairs beside the histogram, the amplitudes below.
fn grid(sheet: &mut Sheet) {
    for pairs in (0..=PAIRS).step_by(50) {
        let y = height(pairs.into());
        sheet.line(&format!("M{LEFT} {y:.1}H{RIGHT}"), "stroke='#ddd'");
        let unit = if pairs == PAIRS { " pairs" } else { "" };
        let label = format!("{pairs}{unit}");
        sheet.text(LEFT - 6.0, y + 4.0, "e s", "#444", &label);
    }
    for amplitude in TICKS {
        let x = across(amplitude as f64 + 0.5);
        sheet.line(&format!("M{x:.1} {BOTTOM}v5"), "stroke='#777'");
        sheet.text(x, BELOW_AT, "m s", "#444", &amplitude.to_string());
    }
    let middle = (LEFT + RIGHT) / 2.0;
    sheet.text(middle, BELOW_AT + 19.0, "m s", "#444", "amplitude");
}

/// Each amplitude's count, and the line of means.
fn histogram(sheet: &mut Sheet, counts: &[u32]) {
    let mut steps = format!("M{LEFT} {BOTTOM}");
    for (k, count) in counts.iter().enumerate() {
        let (y, x) = (height((*count).into()), across(k as f64 + 1.0));
        steps += &format!("V{y:.1}H{x:.1}");
    }
    let [pen, _] = ABOVE;
    let fill = format!("fill='{pen}' fill-opacity='0.3'");
    sheet.area(&format!("{steps}V{BOTTOM}z"), &fill);
    let mut points = Vec::new();
    for (k, mean) in means(counts).into_iter().enumerate() {
        let group = (k * GROUP, counts.len().min((k + 1) * GROUP));
        let x = across((group.0 + group.1) as f64 / 2.0);
        points.push(format!("{x:.1} {:.1}", height(mean)));
    }
    let stroke = format!("stroke='{pen}' stroke-width='2'");
    sheet.line(&format!("M{}", points.join("L")), &stroke);
}

/// What is to be seen in the histogram.
fn notes(sheet: &mut Sheet) {
    let cut = across(CUT as f64);
    sheet.line(&format!("M{cut:.1} {TOP}V{BOTTOM}"), DASHES);
    let start = LEFT + 10.0;
    let (left, right) = (cut - 8.0, cut + 8.0);
    let notes = [
        (start, 288.0, "s", "few whole-number"),
        (start, 304.0, "s", "pairs near (0, 0)"),
        (left, 97.0, "e s", "up to 511: circles that lie whole"),
        (left, 113.0, "e s", "in the square of signed bytes"),
        (right, 97.0, "s", "from 512 on: circles cut"),
        (right, 113.0, "s", "by the square's edges"),
    ];
    for (x, y, class, words) in notes {
        sheet.text(x, y, class, "#444", words);
    }
}

/// A point at an angle, counted from the real axis towards the imaginary one.
fn point(angle: f64, radius: f64) -> [f64; 2] {
    let (sin, cos) = angle.sin_cos();
    [MIDDLE[0] + radius * cos, MIDDLE[1] - radius * sin]
}

fn colours(count: u32) -> [&'static str; 2] {
    if count < EVEN { BELOW } else { ABOVE }
}

/// A sector, with an area in proportion to its count.
fn wedge(sheet: &mut Sheet, k: usize, count: u32) {
    let radius = RADIUS * (f64::from(count) / f64::from(EVEN)).sqrt();
    let [from, to] = [k, k + 1].map(|k| point(k as f64 * FRAC_PI_4, radius));
    let arc = format!("A{radius:.2} {radius:.2} 0 0 0 {:.2} {:.2}", to[0], to[1]);
    let [x, y] = MIDDLE;
    let path = format!("M{x} {y}L{:.2} {:.2}{arc}z", from[0], from[1]);
    let [_, fill] = colours(count);
    sheet.area(&path, &format!("fill='{fill}'"));
}

/// The sectors' edges, of which two lines are the axes, and the circle of the even share.
fn axes(sheet: &mut Sheet) {
    let axis = (RADIUS + BEYOND, "stroke='#777'");
    let edge = (RADIUS + 1.0, "stroke='#fff' stroke-width='1.5'");
    for (k, (reach, stroke)) in [axis, edge, axis, edge].into_iter().enumerate() {
        let ends = [-reach, reach].map(|reach| point(k as f64 * FRAC_PI_4, reach));
        let [from, to] = ends.map(|[x, y]| format!("{x:.1} {y:.1}"));
        sheet.line(&format!("M{from}L{to}"), stroke);
    }
    let [x, y] = MIDDLE;
    let half = format!("A{RADIUS} {RADIUS} 0 0 0");
    let (west, east) = (x - RADIUS, x + RADIUS);
    let circle = format!("M{west} {y}{half} {east} {y}{half} {west} {y}");
    sheet.line(&circle, DASHES);
    sheet.text(east + BEYOND + 4.0, y + 4.0, "s", "#444", "real");
    let above = y - RADIUS - BEYOND - 5.0;
    sheet.text(x, above, "m s", "#444", "imaginary");
}

/// A sector's number, its count, and how far that is from the even share.
fn words(sheet: &mut Sheet, k: usize, count: u32) {
    let [x, y] = point((2 * k + 1) as f64 * FRAC_PI_8, WORDS_AT);
    sheet.text(x, y - 11.0, "m b", "#000", &k.to_string());
    sheet.text(x, y + 5.0, "m s", "#000", &grouped(count));
    let sign = if count < EVEN { '−' } else { '+' };
    let apart = format!("{sign}{}", count.abs_diff(EVEN));
    let [pen, _] = colours(count);
    sheet.text(x, y + 20.0, "m s b", pen, &apart);
}

/// A number from 1,000 to 999,999.
fn grouped(count: u32) -> String {
    format!("{},{:03}", count / 1000, count % 1000)
}

/// Above each half what it shows, and its extremes.
fn headings(sheet: &mut Sheet, census: &Census) {
    let counts = census.amplitude.iter().enumerate();
    let (most_at, most) = counts.max_by_key(|(_, count)| **count).unwrap();
    let none = census.amplitude.iter().filter(|count| **count == 0).count();
    let apart = census.sector.iter().map(|count| count.abs_diff(EVEN));
    let percent = 100.0 * f64::from(apart.max().unwrap()) / f64::from(EVEN);
    let amplitudes = format!("most at {most_at}: {most}; one at 0 and 724; {none} have none");
    let sectors = format!("within {percent:.1} % of even");
    sheet.text(LEFT, HEADING_AT, "b", "#000", "pairs of each amplitude");
    sheet.text(RIGHT, HEADING_AT, "e s", "#444", &amplitudes);
    sheet.text(ROSE_LEFT, HEADING_AT, "b", "#000", "pairs of each sector");
    sheet.text(ROSE_RIGHT, HEADING_AT, "e s", "#444", &sectors);
}

/// What the rose's circle and colours are.
fn legend(sheet: &mut Sheet) {
    let line = format!("M{ROSE_LEFT} {}h22", BELOW_AT - 4.0);
    sheet.line(&line, DASHES);
    let even = format!("even share, {}", grouped(EVEN));
    sheet.text(ROSE_LEFT + 28.0, BELOW_AT, "s", "#444", &even);
    for (x, [_, fill], side) in [(826.0, ABOVE, "above"), (914.0, BELOW, "below")] {
        sheet.rect([x, x + 14.0], BELOW_AT - 11.0, 14.0, fill);
        sheet.text(x + 20.0, BELOW_AT, "s", "#444", side);
    }
}
