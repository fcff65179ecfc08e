//! The picture: what goes on, two bands of verdicts, wander and distance, over one time axis.

use volkjarp::{Presence, Verdict};

use crate::radio::{HZ, Scene};
use crate::svg::Sheet;

/// What one watched sample gave.
pub struct Point {
    pub verdict: Verdict,
    pub permille: f64,
    pub distance: f64,
    pub fall: bool,
}

/// One way to tell boards apart: its name, its colour, and what it said.
type Way<'a> = (&'a str, &'a str, &'a [Point]);

const ALONE: &str = "#8e3b8a";
const UNIT: &str = "#1f5f99";

const LEFT: f64 = 160.0;
const RIGHT: f64 = 976.0;

/// The height of a row of words, of a band and of a plot.
const ROW: f64 = 22.0;
const BAND: f64 = 36.0;
const PLOT: f64 = 84.0;

/// Where the first of the two rows, both bands and both plots start.
const ROWS_AT: f64 = 54.0;
const ALONE_AT: f64 = 128.0;
const UNIT_AT: f64 = 194.0;
const WANDER_AT: f64 = 254.0;
const DISTANCE_AT: f64 = 352.0;

const TITLE: &str = "A radio board is swapped for another with as many subcarriers";
const CAPTION: [&str; 2] = [
    "The radio is made up; every answer is the unit's. By number alone: the unit is given the new \
     board's entries at the old",
    "board's places, so that nothing but the number of subcarriers, 56 before and after, could tell \
     the boards apart.",
];

/// The picture of both ways, from what they said of the scenes that are watched.
pub fn draw(scenes: &[Scene], alone: &[Point], unit: &[Point]) -> String {
    let watched: Vec<&Scene> = scenes.iter().filter(|scene| !scene.calibrates).collect();
    let length = |scenes: &[&Scene]| scenes.iter().map(|scene| scene.seconds).sum::<u64>() as f64;
    let before = watched.partition_point(|scene| scene.tag == 2);
    let mut picture = Picture {
        sheet: Sheet::new(TITLE),
        seconds: length(&watched),
        swap: length(&watched[..before]),
    };
    picture.legend();
    picture.rows(&watched);
    let ways = [("by number alone", ALONE, alone), ("this unit", UNIT, unit)];
    picture.band(ALONE_AT, ways[0]);
    picture.band(UNIT_AT, ways[1]);
    picture.plot(WANDER_AT, "wander", ways, |point| point.permille);
    picture.plot(DISTANCE_AT, "distance", ways, |point| point.distance);
    picture.axis();
    picture.notes();
    picture.sheet.finish(CAPTION)
}

/// How a verdict is shown.
fn colour(verdict: Verdict) -> &'static str {
    match verdict {
        Verdict::Warming => "#f3d774",
        Verdict::Absent => "#b4d9bb",
        Verdict::Present => "#e58f78",
    }
}

struct Picture {
    sheet: Sheet,
    /// How long the axis is, and when the tag changes.
    seconds: f64,
    swap: f64,
}

impl Picture {
    fn x(&self, seconds: f64) -> f64 {
        LEFT + (RIGHT - LEFT) * seconds / self.seconds
    }

    /// Where the sample with this number stands.
    fn at(&self, sample: usize) -> f64 {
        self.x(sample as f64 / HZ as f64)
    }

    fn legend(&mut self) {
        let verdicts = [Verdict::Warming, Verdict::Absent, Verdict::Present];
        for (x, verdict) in [722.0, 818.0, 900.0].into_iter().zip(verdicts) {
            self.sheet.rect([x, x + 14.0], 16.0, 14.0, colour(verdict));
            self.sheet
                .text(x + 20.0, 28.0, "s", "#444", &verdict.to_string());
        }
    }

    /// What goes on in the room, and the board that hears it.
    fn rows(&mut self, scenes: &[&Scene]) {
        self.row(ROWS_AT, "in the room", scenes, |scene| match scene.walks {
            true => ("someone walks", "#cfcfcf"),
            false => ("empty", "#f1f1f1"),
        });
        let second = ROWS_AT + ROW + 4.0;
        self.row(second, "radio board", scenes, |scene| match scene.tag {
            2 => ("old: 56 subcarriers, layout 2", "#f1f1f1"),
            _ => ("new: 56 subcarriers, layout 3", "#dfe7ee"),
        });
    }

    fn row(
        &mut self,
        y: f64,
        title: &str,
        scenes: &[&Scene],
        words: fn(&Scene) -> (&'static str, &'static str),
    ) {
        self.sheet.text(14.0, y + 16.0, "", "#000", title);
        let mut from = 0;
        for part in scenes.chunk_by(|a, b| words(a) == words(b)) {
            let to = from + part.iter().map(|scene| scene.seconds).sum::<u64>();
            let ends = [self.x(from as f64), self.x(to as f64)];
            let (word, fill) = words(part[0]);
            self.sheet.rect(ends, y, ROW, fill);
            self.sheet
                .text((ends[0] + ends[1]) / 2.0, y + 15.5, "m s", "#333", word);
            from = to;
        }
    }

    fn band(&mut self, y: f64, (title, pen, points): Way<'_>) {
        self.sheet.text(14.0, y + 23.0, "", pen, title);
        let mut from = 0;
        for part in points.chunk_by(|a, b| a.verdict == b.verdict) {
            let ends = [self.at(from), self.at(from + part.len())];
            let verdict = part[0].verdict;
            self.sheet.rect(ends, y, BAND, colour(verdict));
            if ends[1] - ends[0] > 60.0 {
                let middle = (ends[0] + ends[1]) / 2.0;
                self.sheet
                    .text(middle, y + 23.0, "m", "#000", &verdict.to_string());
            }
            from += part.len();
        }
        if let Some(sample) = points.iter().position(|point| point.fall) {
            let x = self.at(sample);
            self.sheet
                .line(&format!("M{x:.1} {y}l-5-8h10z"), "stroke='#000'");
            self.sheet
                .text(x, y - 12.0, "m s b", "#000", "fall suspected");
        }
    }

    fn plot(&mut self, y: f64, title: &str, ways: [Way<'_>; 2], value: fn(&Point) -> f64) {
        let values = ways
            .iter()
            .flat_map(|(.., points)| points.iter().map(value));
        let top = values.fold(0.0, f64::max);
        let height = |value: f64| y + PLOT * (1.0 - value / top);
        self.sheet.text(14.0, y + 40.0, "", "#000", title);
        self.sheet.text(14.0, y + 57.0, "s", "#444", "permille");
        let frame = format!("M{LEFT} {y}H{RIGHT}v{PLOT}H{LEFT}z");
        self.sheet.line(&frame, "stroke='#bbb'");
        for tick in [0.0, top] {
            self.sheet.text(
                LEFT - 6.0,
                height(tick) + 4.0,
                "e s",
                "#444",
                &tick.to_string(),
            );
        }
        if title == "wander" {
            let on = Presence::default().on_permille;
            let y = height(on.into());
            let dashes = "stroke='#777' stroke-dasharray='5 4'";
            self.sheet.line(&format!("M{LEFT} {y:.1}H{RIGHT}"), dashes);
            let words = format!("present from {on} on");
            self.sheet.text(RIGHT - 6.0, y - 5.0, "e s", "#444", &words);
        }
        for ((_, pen, points), width) in ways.into_iter().zip([2.6, 1.4]) {
            let path = self.curve(points.iter().map(|point| height(value(point))));
            self.sheet
                .line(&path, &format!("stroke='{pen}' stroke-width='{width}'"));
        }
    }

    /// A curve through these heights, sample by sample; of a level part only the ends are written.
    fn curve(&self, heights: impl Iterator<Item = f64>) -> String {
        let points: Vec<String> = heights.map(|y| format!("{y:.0}")).collect();
        let mut path = String::new();
        for (sample, y) in points.iter().enumerate() {
            let level = |other: Option<&String>| other == Some(y);
            if sample > 0 && level(points.get(sample - 1)) && level(points.get(sample + 1)) {
                continue;
            }
            let mark = if sample == 0 { 'M' } else { 'L' };
            path += &format!("{mark}{:.1} {y}", self.at(sample));
        }
        path
    }

    /// Seconds below, and the swap across all.
    fn axis(&mut self) {
        let bottom = DISTANCE_AT + PLOT;
        for second in (0..=self.seconds as u64).step_by(2) {
            let x = self.x(second as f64);
            self.sheet
                .line(&format!("M{x:.1} {bottom}v5"), "stroke='#777'");
            self.sheet
                .text(x, bottom + 18.0, "m s", "#444", &format!("{second} s"));
        }
        let x = self.x(self.swap);
        let style = "stroke='#000' stroke-width='1.6'";
        self.sheet
            .line(&format!("M{x:.1} {ROWS_AT}V{bottom}"), style);
        self.sheet.text(x, ROWS_AT - 5.0, "m b", "#000", "swap");
    }

    /// What is to be seen behind the swap.
    fn notes(&mut self) {
        let (x, later) = (self.x(self.swap) + 8.0, self.x(self.swap + 1.3));
        let notes = [
            (
                x,
                ALONE_AT + 52.0,
                ALONE,
                "shown as taken, and no one is there",
            ),
            (
                x,
                UNIT_AT + 50.0,
                UNIT,
                "warming until it has watched a full window through the new board",
            ),
            (
                later,
                WANDER_AT + 22.0,
                ALONE,
                "both boards' samples in one window",
            ),
            (
                x,
                DISTANCE_AT + 22.0,
                ALONE,
                "measured against what the old board learnt",
            ),
            (
                x,
                DISTANCE_AT + 77.0,
                UNIT,
                "0: the new board has learnt no empty room yet",
            ),
        ];
        for (x, y, pen, words) in notes {
            self.sheet.text(x, y, "s", pen, words);
        }
    }
}
