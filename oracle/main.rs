//! Answers a `pagebook` script with the original interval.rs and bounding.rs.
//!
//! It reads lines `interval KIND FUNCTION ARGUMENTS`, `bounder`, `bounder LO HI`, `count shape HEX`
//! and `bounds` from standard input and writes `N: ANSWER` for each, as `pagebook` does. `take`,
//! which the original lacks, is not answered. A line that it cannot read ends the run with status 1.

mod bounder;
mod bounding;
#[allow(dead_code)]
mod interval;

use interval::{Interval, IntervalTrait, WraparoundInterval};
use std::io::{self, BufRead, BufWriter, Write};
use std::process::ExitCode;

fn main() -> ExitCode {
    let mut out = BufWriter::with_capacity(1 << 20, io::stdout().lock());
    let mut state = bounder::State::default();
    for (index, line) in io::stdin().lock().lines().enumerate() {
        let line = line.expect("standard input is text");
        let number = index + 1;
        if line.trim().is_empty() || line.starts_with('#') {
            continue;
        }
        match answer(&mut state, &line) {
            Some(text) => writeln!(out, "{number}: {text}").expect("standard output is open"),
            None => {
                out.flush().expect("standard output is open");
                eprintln!("line {number}: {line}");
                return ExitCode::FAILURE;
            }
        }
    }
    out.flush().expect("standard output is open");
    ExitCode::SUCCESS
}

fn answer(state: &mut bounder::State, line: &str) -> Option<String> {
    let words: Vec<&str> = line.split_ascii_whitespace().collect();
    let ["interval", kind, function, arguments @ ..] = words.as_slice() else {
        return state.answer(&words);
    };
    let (kind, function) = (*kind, *function);
    let values = arguments.iter().map(|word| number(word)).collect::<Option<Vec<f64>>>()?;
    match (kind, function) {
        ("ordinary", _) => ask::<Interval>(function, &values),
        ("wraparound", "to_ordinary") => to_ordinary(&values),
        ("wraparound", _) => ask::<WraparoundInterval>(function, &values),
        _ => None,
    }
}

/// What `parse` reads, or `0x` and the 16 hexadecimal digits of the bits.
fn number(word: &str) -> Option<f64> {
    match word.strip_prefix("0x") {
        Some(digits) if digits.len() == 16 && digits.bytes().all(|b| b.is_ascii_hexdigit()) => {
            u64::from_str_radix(digits, 16).ok().map(f64::from_bits)
        }
        Some(_) => None,
        None => word.parse().ok(),
    }
}

fn ask<K: IntervalTrait>(function: &str, values: &[f64]) -> Option<String> {
    Some(match (function, values) {
        ("empty", []) => pair(&K::empty()),
        ("full", []) => pair(&K::full()),
        ("new", &[lo, hi]) => pair(&K::new(lo, hi)),
        ("lo", &[lo, hi]) => format!("{:?}", K::new(lo, hi).lo()),
        ("hi", &[lo, hi]) => format!("{:?}", K::new(lo, hi).hi()),
        ("is_wraparound", &[lo, hi]) => yes(K::new(lo, hi).is_wraparound()),
        ("width", &[lo, hi]) => format!("{:?}", K::new(lo, hi).width()),
        ("mid", &[lo, hi]) => format!("{:?}", K::new(lo, hi).mid()),
        ("is_empty", &[lo, hi]) => yes(K::new(lo, hi).is_empty()),
        ("intersects_value", &[lo, hi, v]) => yes(K::new(lo, hi).intersects_value(v)),
        ("merge_value", &[lo, hi, v]) => pair(&K::new(lo, hi).merge_value(v)),
        ("expand_by", &[lo, hi, v]) => pair(&K::new(lo, hi).expand_by(v)),
        ("intersects_interval", &[a, b, c, d]) => {
            yes(K::new(a, b).intersects_interval(&K::new(c, d)))
        }
        ("contains_interval", &[a, b, c, d]) => yes(K::new(a, b).contains_interval(&K::new(c, d))),
        ("merge_interval", &[a, b, c, d]) => pair(&K::new(a, b).merge_interval(&K::new(c, d))),
        ("same", &[a, b, c, d]) => yes(K::new(a, b) == K::new(c, d)),
        _ => return None,
    })
}

/// The conversion of the original fails where the pair wraps; ours refuses with number 12.
fn to_ordinary(values: &[f64]) -> Option<String> {
    let &[lo, hi] = values else {
        return None;
    };
    Some(match Interval::try_from(WraparoundInterval::new(lo, hi)) {
        Ok(bounds) => pair(&bounds),
        Err(_) => "refused 12 layer 4 place 0".to_string(),
    })
}

fn pair<K: IntervalTrait>(bounds: &K) -> String {
    format!("{:?} {:?}", bounds.lo(), bounds.hi())
}

fn yes(answer: bool) -> String {
    if answer { "yes" } else { "no" }.to_string()
}
