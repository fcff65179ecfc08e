//! docs/angles.svg: the errors of all pairs' angles over the circle, with the index of the table rounded down, as the Rust has
//! it, and to the nearest.

use crate::errors::{Angle, Degree, Errors, by_degree};
use crate::{floored, radar};

#[allow(dead_code)]
#[path = "../../gateway/examples/swap/svg.rs"]
mod svg;

use svg::Sheet;

const LEFT: f64 = 92.0;
const RIGHT: f64 = 976.0;

/// The height of a plot, and the units that it shows on either side of 0.
const PLOT: f64 = 150.0;
const UNITS: f64 = 45.0;

/// Where both plots start.
const FLOORED_AT: f64 = 78.0;
const NEAREST_AT: f64 = 272.0;

const TITLE: &str = "Angles against the true ones, over all 65,536 pairs of signed bytes";
const CAPTION: [&str; 2] = [
    "The angle less the true one, in units of which 65,536 are a turn (182 a degree). The band holds \
     every pair's error, the line is the mean,",
    "both by degree. The lean is the mean error counted away from the nearer axis: below 0, angles \
     lie towards that axis.",
];

pub fn draw() -> String {
    let mut sheet = Sheet::new(TITLE);
    let floored = "index rounded down, as before";
    plot(
        &mut sheet,
        FLOORED_AT,
        "#8e3b8a",
        floored,
        floored::atan2_brad,
    );
    let nearest = "index rounded to the nearest";
    plot(
        &mut sheet,
        NEAREST_AT,
        "#1f5f99",
        nearest,
        radar::phase::atan2_brad,
    );
    for eighth in -4..=4 {
        let x = across(f64::from(eighth * 45));
        let path = format!("M{x:.1} {FLOORED_AT}v{PLOT}M{x:.1} {NEAREST_AT}v{PLOT}v5");
        sheet.line(&path, "stroke='#bbb'");
        let words = format!("{}°", eighth * 45);
        sheet.text(x, NEAREST_AT + PLOT + 20.0, "m s", "#444", &words);
    }
    sheet.finish(CAPTION)
}

/// Where a degree from -180 to 180 stands.
fn across(degree: f64) -> f64 {
    LEFT + (RIGHT - LEFT) * (degree + 180.0) / 360.0
}

fn plot(sheet: &mut Sheet, top: f64, pen: &str, title: &str, angle: Angle) {
    sheet.text(LEFT, top - 10.0, "b", pen, title);
    let errors = Errors::of(angle).to_string();
    sheet.text(RIGHT, top - 10.0, "e s", "#444", &errors);
    let height = |units: f64| top + PLOT / 2.0 * (1.0 - units / UNITS);
    for units in [-40.0, -20.0, 0.0, 20.0, 40.0] {
        let y = height(units);
        sheet.line(&format!("M{LEFT} {y:.1}H{RIGHT}"), "stroke='#ddd'");
        sheet.text(LEFT - 6.0, y + 4.0, "e s", "#444", &units.to_string());
    }
    let degrees = by_degree(angle);
    let curve = |value: fn(&Degree) -> f64| -> Vec<String> {
        let point = |(k, degree)| {
            let x = across(k as f64 - 179.5);
            format!("{x:.1} {:.1}", height(value(degree)))
        };
        degrees.iter().enumerate().map(point).collect()
    };
    let mut band = curve(|degree| degree.most);
    band.extend(curve(|degree| degree.least).into_iter().rev());
    let band = format!("M{}z", band.join("L"));
    sheet.area(&band, &format!("fill='{pen}' fill-opacity='0.22'"));
    let mean = format!("M{}", curve(|degree| degree.mean).join("L"));
    sheet.line(&mean, &format!("stroke='{pen}' stroke-width='2'"));
}
