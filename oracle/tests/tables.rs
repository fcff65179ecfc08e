//! What docs/TABLES.md says of the tables and of their rule.

use std::sync::LazyLock;

use oracle::errors::{Errors, pairs};
use oracle::fixed::{Fixed, INVERSE_PI, PI, arctangent, sine};
use oracle::radar::phase::atan2_brad;
use oracle::tables::{ATAN, HALF_TURN, RULE, Rule, SINE, STEPS, Table, UNIT, lines, tables};

/// So many decimal digits behind the point, the rest left out.
fn digits(mut value: Fixed, count: usize) -> String {
    let mut text = format!("{}.", value.whole());
    for _ in 0..count {
        value = value.fraction() * 10;
        text += &value.whole().to_string();
    }
    text
}

#[test]
fn sixty_digits_of_constants() {
    let expected = [
        "3.141592653589793238462643383279502884197169399375105820974944",
        "0.318309886183790671537767526745028724068919291480912897495334",
        "0.463647609000806116214256231461214402028537054286120263810933",
        "0.707106781186547524400844362104849039284835937688474036588339",
    ];
    let told = [*PI, *INVERSE_PI, arctangent(1, 2), sine(*PI / 4)];
    assert_eq!(told.map(|value| digits(value, 60)), expected);
}

/// sin² a + cos² a = 1, and sin² a = t²/(1 + t²) where a is the arctangent of t. Asked to ten digits more than are claimed:
/// squares near 0 have fewer than their roots, and entries are scaled.
#[test]
fn sixty_digits_of_every_entry() {
    let n = STEPS[1];
    let square = |angle| sine(angle) * sine(angle);
    let part = |i| *PI / 2 * i / n;
    for i in 0..=n {
        let sum = square(part(i)) + square(part(n - i));
        let expected = Fixed::from(i * i) / (i * i + n * n);
        let of_sine = sum.apart(Fixed::from(1));
        let of_arctangent = square(arctangent(i, n)).apart(expected);
        for error in [of_sine, of_arctangent] {
            assert_eq!(digits(error, 70), digits(Fixed::from(0), 70), "{i}");
        }
    }
}

#[test]
fn true_values_are_those_of_f64() {
    use std::f64::consts::{FRAC_PI_2, PI};
    for n in STEPS {
        for i in 0..=n {
            let part = i as f64 / n as f64;
            let angle = part.atan() * HALF_TURN as f64 / PI;
            let height = (part * FRAC_PI_2).sin() * UNIT as f64;
            for (table, expected) in [(ATAN, angle), (SINE, height)] {
                let value = f64::from((table.true_value)(i, n));
                assert!((value - expected).abs() < 1e-9, "{} {n} {i}", table.name);
            }
        }
    }
}

/// All entries at 256 steps, and each fourth at 1,024.
#[test]
fn nearest_numbers_are_the_constant_tables() {
    for (table, n) in tables() {
        let mut met = 0;
        for (i, nearest) in table.nearest(n).into_iter().enumerate() {
            let constant = table.constant(i as u64, n);
            assert!(constant.is_none_or(|constant| constant == nearest), "{i}");
            met += usize::from(constant.is_some());
        }
        assert_eq!(met, 257);
    }
}

#[test]
fn the_rule_gives_the_nearest_number_everywhere() {
    for (table, n) in tables() {
        assert_eq!(table.ruled(&RULE, n), table.nearest(n));
    }
}

/// The rule with so many fractional bits.
fn with_bits(bits: u32) -> Rule {
    let scale = |value: Fixed| (value * (1 << bits)).nearest();
    let quarter = *PI / 2;
    let mut term = quarter * UNIT;
    let a = std::array::from_fn(|k| {
        let k = k as u64;
        let scaled = scale(term);
        term = term * quarter * quarter / ((2 * k + 2) * (2 * k + 3));
        scaled
    });
    let r = scale(*INVERSE_PI * HALF_TURN);
    Rule { bits, r, a, ..RULE }
}

#[test]
fn the_constants_are_the_nearest_numbers() {
    assert_eq!(with_bits(RULE.bits), RULE);
}

/// A measure of every entry of each table, with its place.
fn measured(measure: impl Fn(Table, u64, u64) -> Fixed) -> [Vec<(Fixed, u64)>; 4] {
    tables().map(|(table, n)| (0..=n).map(|i| (measure(table, i, n), i)).collect())
}

fn told(found: Option<&(Fixed, u64)>) -> String {
    let (value, place) = found.unwrap();
    format!("{:.8} at {place}", f64::from(*value))
}

/// How far the true value that is nearest to a half is from it.
#[test]
fn the_closest_calls() {
    let half = Fixed::from(1) / 2;
    let from_half = measured(|table, i, n| (table.true_value)(i, n).fraction().apart(half));
    let expected = [
        "0.00324001 at 92",
        "0.00187714 at 555",
        "0.00039823 at 105",
        "0.00023275 at 1003",
    ];
    assert_eq!(from_half.map(|all| told(all.iter().min())), expected);
}

/// Before its last rounding.
#[test]
fn the_largest_errors_of_the_rule() {
    let errors = measured(|table, i, n| {
        let ruled = (table.by_rule)(&RULE, i, n).value();
        ruled.apart((table.true_value)(i, n))
    });
    let expected = [
        "0.00000083 at 255",
        "0.00000098 at 1022",
        "0.00000096 at 243",
        "0.00000166 at 1015",
    ];
    assert_eq!(errors.map(|all| told(all.iter().max())), expected);
}

/// The first and the last entry, and the largest step.
#[test]
fn entries_never_fall() {
    let shapes = tables().map(|(table, n)| {
        let entries = table.nearest(n);
        assert!(entries.is_sorted());
        let steps = entries.windows(2).map(|pair| pair[1] - pair[0]);
        (entries[0], entries[n as usize], steps.max().unwrap())
    });
    let expected = [
        (0, 8_192, 41),
        (0, 8_192, 11),
        (0, 16_384, 101),
        (0, 16_384, 26),
    ];
    assert_eq!(shapes, expected);
}

/// The angle of (x, y), read at the nearest index of a table of arctangents.
fn read(table: &[u16], y: i32, x: i32) -> i16 {
    let steps = table.len() as i32 - 1;
    let (low, high) = (y.abs().min(x.abs()), y.abs().max(x.abs()));
    let index = (low * steps + high / 2) / high.max(1);
    let octant = i32::from(table[index as usize]);
    let quadrant = if y.abs() > x.abs() {
        16_384 - octant
    } else {
        octant
    };
    let half = if x < 0 { 32_768 - quadrant } else { quadrant };
    if y < 0 { -half as i16 } else { half as i16 }
}

static FINE: LazyLock<Vec<u16>> = LazyLock::new(|| ATAN.nearest(STEPS[1]));

#[test]
fn what_a_finer_table_brings() {
    let coarse = ATAN.nearest(STEPS[0]);
    assert!(pairs().all(|(y, x)| read(&coarse, y, x) == atan2_brad(y, x)));
    let told = [atan2_brad, |y, x| read(&FINE, y, x)].map(|angle| Errors::of(angle).to_string());
    let expected = [
        "mean 7.79 (0.043°), largest 20.5 (0.113°), ",
        "mean 1.95 (0.011°), largest 5.4 (0.030°), ",
    ];
    for (told, expected) in told.iter().zip(expected) {
        assert!(told.starts_with(expected), "{told}");
    }
}

/// At half of the steps: the rule's value before its last rounding, and the true one.
#[test]
fn the_worked_entry() {
    let expected = [
        (ATAN, 4_836, ["4836.01998291", "4836.01998317"]),
        (SINE, 11_585, ["11585.23750305", "11585.23750296"]),
    ];
    for (n, (table, entry, values)) in STEPS.into_iter().flat_map(|n| expected.map(|e| (n, e))) {
        let ruled = (table.by_rule)(&RULE, n / 2, n);
        assert_eq!(ruled.nearest(), entry);
        let told = [ruled.value(), (table.true_value)(n / 2, n)];
        assert_eq!(told.map(|value| format!("{:.8}", f64::from(value))), values);
    }
    assert_eq!(RULE.atan(1, 2).a, 12_677_336_224 * 2);
}

/// x from a₇ to a₀.
#[test]
fn the_worked_sine() {
    let mut x = 0;
    let brackets = RULE.a.iter().rev().map(|a| {
        x = a - x / 4;
        x
    });
    let expected = [
        11,
        976,
        61_584,
        2_740_963,
        79_746_684,
        1_349_172_223,
        10_760_285_638,
        24_296_004_000,
    ];
    assert!(brackets.eq(expected));
}

/// The tolerance is 24,000.
#[test]
fn squares_of_opposite_sines() {
    let square = |sine: &u16| u32::from(*sine).pow(2);
    for n in STEPS {
        let sines = SINE.nearest(n);
        let opposite = sines.iter().zip(sines.iter().rev());
        let sums = opposite.map(|(a, b)| square(a) + square(b));
        assert_eq!(sums.map(|sum| sum.abs_diff(1 << 28)).max(), Some(22_314));
    }
}

#[test]
fn every_product_of_the_rule_is_below_2_to_the_61st() {
    let of_table = |(table, n): (Table, u64)| {
        let products = (0..=n).map(|i| (table.by_rule)(&RULE, i, n).largest);
        products.max().unwrap()
    };
    let largest = tables().map(of_table).into_iter().max();
    assert_eq!(largest, Some(1_232_506_166_481_780_736));
    assert!(largest < Some(1 << 61));
}

/// Before the last rounding too.
#[test]
fn an_entry_depends_on_the_ratio_alone() {
    let n = STEPS[0];
    for table in [ATAN, SINE] {
        for (i, by) in (0..=n).flat_map(|i| [2, 3, 4, 5, 7, 8].map(|by| (i, by))) {
            let value = |by| (table.by_rule)(&RULE, i * by, n * by).value();
            assert_eq!(value(1), value(by), "{} {i} {by}", table.name);
        }
    }
}

/// How many of the entries at 1,024 steps another rule misses.
fn missed(table: Table, rule: &Rule) -> usize {
    let (nearest, ruled) = (table.nearest(STEPS[1]), table.ruled(rule, STEPS[1]));
    nearest.iter().zip(ruled).filter(|(a, b)| *a != b).count()
}

/// Constants that are 0 leave their terms out.
#[test]
fn how_many_fractions_and_terms_are_needed() {
    let deep = |fractions| missed(ATAN, &Rule { fractions, ..RULE });
    assert_eq!([deep(15), deep(16)], [2, 0]);
    let long = |terms: usize| {
        let mut rule = RULE;
        rule.a[terms..].fill(0);
        missed(SINE, &rule)
    };
    assert_eq!([long(5), long(6)], [3, 0]);
}

#[test]
fn how_many_fractional_bits_are_needed() {
    let atans = |bits| missed(ATAN, &with_bits(bits));
    let sines = |bits| missed(SINE, &with_bits(bits));
    assert_eq!([atans(7), atans(8)], [2, 0]);
    assert_eq!([sines(12), sines(13)], [1, 0]);
    assert!((13..=20).all(|bits| atans(bits) == 0 && sines(bits) == 0));
}

#[test]
fn the_recorded_lines_are_the_true_values() {
    let path = concat!(env!("CARGO_MANIFEST_DIR"), "/../crates/angletables/stdout");
    assert!(
        std::fs::read_to_string(path).unwrap() == lines(),
        "crates/angletables/stdout is not what `record angletables` writes"
    );
}
