//! Answers `bounder`, `count shape HEX` and `bounds` with the original bounding.rs.
//!
//! Of every axis both ends are told, also of one without values.

use crate::bounding::GeometryBounder;
use crate::interval::{Interval, IntervalTrait};
use crate::{number, pair};
use arrow_schema::ArrowError;
use wkb::reader::Fault;

/// The bounder that was made last.
#[derive(Default)]
pub struct State(Option<GeometryBounder>);

impl State {
    pub fn answer(&mut self, words: &[&str]) -> Option<String> {
        match words {
            ["bounder"] => self.start(GeometryBounder::empty()),
            ["bounder", lo, hi] => {
                let hint = Interval::new(number(lo)?, number(hi)?);
                self.start(GeometryBounder::empty().with_wraparound_hint(hint))
            }
            ["count", "shape", digits] => count(self.0.as_mut()?, &bytes(digits)?),
            ["bounds"] => self.0.as_ref().map(bounds),
            _ => None,
        }
    }

    fn start(&mut self, bounder: GeometryBounder) -> Option<String> {
        self.0 = Some(bounder);
        Some("counting".to_string())
    }
}

/// Two hexadecimal digits for each byte, or `-` for none.
fn bytes(digits: &str) -> Option<Vec<u8>> {
    if digits == "-" {
        return Some(Vec::new());
    }
    let pairs = digits.as_bytes().chunks(2);
    pairs.map(|two| u8::from_str_radix(std::str::from_utf8(two).ok()?, 16).ok()).collect()
}

fn count(bounder: &mut GeometryBounder, bytes: &[u8]) -> Option<String> {
    match bounder.update_wkb(bytes) {
        Ok(()) => Some("counted".to_string()),
        Err(ArrowError::ExternalError(error)) => Some(error.downcast::<Fault>().ok()?.to_string()),
        Err(_) => None,
    }
}

fn bounds(bounder: &GeometryBounder) -> String {
    let axes = [
        ("x", pair(&bounder.x())),
        ("y", pair(&bounder.y())),
        ("z", pair(&bounder.z())),
        ("m", pair(&bounder.m())),
    ];
    let mut words: Vec<String> = axes.map(|(name, ends)| format!("{name} {ends}")).into();
    words.push("codes".to_string());
    let codes = bounder.geometry_types();
    if codes.is_empty() {
        words.push("none".to_string());
    }
    words.extend(codes.iter().map(i32::to_string));
    words.join(" ")
}
