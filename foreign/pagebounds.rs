//! Page bounds for maps: the library for callers in Rust, over the static library that `rt lib` makes in crates/foreign.
//!
//! No call allocates but [`verdicts`], and none has any state. docs/FOREIGN.md says how to build it.

use std::fmt;

/// Two ends. As the bounds of x, `lo` above `hi` means the values from `lo` on and those up to `hi`.
#[repr(C)]
#[derive(Clone, Copy, Debug, PartialEq)]
pub struct Pair {
    pub lo: f64,
    pub hi: f64,
}

impl Pair {
    /// The pair without values, and the hint of a bounder that has none.
    pub const EMPTY: Pair = Pair { lo: f64::INFINITY, hi: f64::NEG_INFINITY };

    pub const fn new(lo: f64, hi: f64) -> Pair {
        Pair { lo, hi }
    }
}

/// A refusal of the library: its number, 1 to 13, its layer and the place that it names.
#[repr(C)]
#[derive(Clone, Copy, Debug, Default, PartialEq, Eq)]
pub struct Fault {
    pub number: u32,
    pub layer: u32,
    pub place: usize,
}

impl fmt::Display for Fault {
    fn fmt(&self, f: &mut fmt::Formatter) -> fmt::Result {
        write!(f, "refused {} layer {} place {}", self.number, self.layer, self.place)
    }
}

impl std::error::Error for Fault {}

/// Why a call on records was not granted.
#[derive(Clone, Copy, Debug, PartialEq, Eq)]
pub enum Refusal {
    Fault(Fault),
    /// a record that no bounder keeps
    Record,
    /// not as many verdicts as pages
    Length,
}

impl fmt::Display for Refusal {
    fn fmt(&self, f: &mut fmt::Formatter) -> fmt::Result {
        match self {
            Refusal::Fault(fault) => fault.fmt(f),
            Refusal::Record => f.write_str("no bounder keeps such a record"),
            Refusal::Length => f.write_str("not as many verdicts as pages"),
        }
    }
}

impl std::error::Error for Refusal {}

/// What is kept of the shapes of a page, under one hint. It may be stored and handed in again.
#[repr(C)]
#[derive(Clone, Copy, Debug, PartialEq)]
pub struct Record {
    pub x_left: Pair,
    pub x_mid: Pair,
    pub x_right: Pair,
    pub y: Pair,
    pub z: Pair,
    pub m: Pair,
    pub codes: u32,
}

#[repr(C)]
struct RawBounds {
    pairs: [Pair; 4],
    has: [bool; 4],
    codes: u32,
}

/// What is told of a record: the bounds of each axis that has values, and the set of type codes.
#[derive(Clone, Copy, Debug, PartialEq)]
pub struct Bounds {
    pub x: Option<Pair>,
    pub y: Option<Pair>,
    pub z: Option<Pair>,
    pub m: Option<Pair>,
    pub codes: u32,
}

impl Bounds {
    /// The type codes in rising order.
    pub fn type_codes(&self) -> impl Iterator<Item = u32> {
        let codes = self.codes;
        (0..28).filter(move |place| codes >> place & 1 == 1).map(|place| 1000 * (place / 7) + place % 7 + 1)
    }
}

impl From<RawBounds> for Bounds {
    fn from(raw: RawBounds) -> Bounds {
        let [x, y, z, m] = std::array::from_fn(|i| raw.has[i].then_some(raw.pairs[i]));
        Bounds { x, y, z, m, codes: raw.codes }
    }
}

/// The kind of a window's bounds of x.
#[derive(Clone, Copy, Debug, PartialEq, Eq)]
pub enum Kind {
    Ordinary,
    Wraparound,
}

/// A window. z and m are asked for where they are given.
#[derive(Clone, Copy, Debug, PartialEq)]
pub struct Window {
    pub kind: Kind,
    pub x: Pair,
    pub y: Pair,
    pub z: Option<Pair>,
    pub m: Option<Pair>,
}

#[repr(C)]
struct RawWindow {
    kind: u32,
    asked: u32,
    pairs: [Pair; 4],
}

impl From<&Window> for RawWindow {
    fn from(window: &Window) -> RawWindow {
        let z = window.z.unwrap_or(Pair::EMPTY);
        let m = window.m.unwrap_or(Pair::EMPTY);
        RawWindow {
            kind: window.kind as u32,
            asked: u32::from(window.z.is_some()) + 2 * u32::from(window.m.is_some()),
            pairs: [window.x, window.y, z, m],
        }
    }
}

/// What a window says of a page.
#[derive(Clone, Copy, Debug, PartialEq, Eq)]
#[repr(u8)]
pub enum Verdict {
    /// none of its runs meets the window
    Skip = 0,
    Keep = 1,
    /// refusal 12: its x pair wraps, and the window is ordinary
    Refused = 2,
    /// a record that no bounder keeps
    NoRecord = 3,
}

impl Verdict {
    pub fn from_byte(byte: u8) -> Option<Verdict> {
        [Verdict::Skip, Verdict::Keep, Verdict::Refused, Verdict::NoRecord].into_iter().find(|v| *v as u8 == byte)
    }
}

#[link(name = "foreign", kind = "static")]
unsafe extern "C" {
    fn pagebounds_check(bytes: *const u8, length: usize, fault: &mut Fault) -> i32;
    fn pagebounds_bounds(
        bytes: *const u8,
        length: usize,
        hint: &Pair,
        told: *mut RawBounds,
        record: *mut Record,
        fault: &mut Fault,
    ) -> i32;
    fn pagebounds_empty(record: *mut Record);
    fn pagebounds_add(record: &mut Record, bytes: *const u8, length: usize, hint: &Pair, fault: &mut Fault) -> i32;
    fn pagebounds_tell(record: &Record, hint: &Pair, told: *mut RawBounds) -> i32;
    fn pagebounds_verdict(
        record: &Record,
        hint: &Pair,
        window: &RawWindow,
        verdict: &mut u8,
        fault: &mut Fault,
    ) -> i32;
    fn pagebounds_verdicts(
        records: *const Record,
        pages: usize,
        hint: &Pair,
        window: &RawWindow,
        verdicts: *mut u8,
        length: usize,
        fault: &mut Fault,
    ) -> i32;
}

const NONE: Record = Record {
    x_left: Pair::EMPTY,
    x_mid: Pair::EMPTY,
    x_right: Pair::EMPTY,
    y: Pair::EMPTY,
    z: Pair::EMPTY,
    m: Pair::EMPTY,
    codes: 0,
};

const UNTOLD: RawBounds = RawBounds { pairs: [Pair::EMPTY; 4], has: [false; 4], codes: 0 };

/// The statuses that this module cannot cause are left out: a kind or axes that mean nothing.
fn answer(status: i32, fault: Fault) -> Result<(), Refusal> {
    match status {
        0 => Ok(()),
        -3 => Err(Refusal::Length),
        -4 => Err(Refusal::Record),
        _ => Err(Refusal::Fault(fault)),
    }
}

/// Whether the bytes hold one whole shape in ISO WKB, at most 32 levels deep.
pub fn check(bytes: &[u8]) -> Result<(), Fault> {
    let mut fault = Fault::default();
    let status = unsafe { pagebounds_check(bytes.as_ptr(), bytes.len(), &mut fault) };
    if status == 0 { Ok(()) } else { Err(fault) }
}

/// What is told of the shape that the bytes hold, under the hint, and its record.
pub fn bounds(bytes: &[u8], hint: Pair) -> Result<(Bounds, Record), Fault> {
    let (mut fault, mut told, mut record) = (Fault::default(), UNTOLD, NONE);
    let status =
        unsafe { pagebounds_bounds(bytes.as_ptr(), bytes.len(), &hint, &mut told, &mut record, &mut fault) };
    if status == 0 { Ok((told.into(), record)) } else { Err(fault) }
}

impl Default for Record {
    fn default() -> Record {
        Record::empty()
    }
}

impl Record {
    /// The record of no shapes.
    pub fn empty() -> Record {
        let mut record = NONE;
        unsafe { pagebounds_empty(&mut record) };
        record
    }

    /// Adds the shape that the bytes hold, or leaves the record as it was.
    pub fn add(&mut self, bytes: &[u8], hint: Pair) -> Result<(), Refusal> {
        let mut fault = Fault::default();
        let status = unsafe { pagebounds_add(self, bytes.as_ptr(), bytes.len(), &hint, &mut fault) };
        answer(status, fault)
    }

    /// What is told of the record under the hint that it was filled under.
    pub fn tell(&self, hint: Pair) -> Result<Bounds, Refusal> {
        let mut told = UNTOLD;
        let status = unsafe { pagebounds_tell(self, &hint, &mut told) };
        answer(status, Fault::default()).map(|()| told.into())
    }

    /// Skip or keep, under the hint that the record was filled under.
    pub fn verdict(&self, hint: Pair, window: &Window) -> Result<Verdict, Refusal> {
        let (mut fault, mut byte) = (Fault::default(), 0);
        let status = unsafe { pagebounds_verdict(self, &hint, &window.into(), &mut byte, &mut fault) };
        answer(status, fault).map(|()| if byte == 0 { Verdict::Skip } else { Verdict::Keep })
    }
}

/// A byte for each page, as `Verdict` numbers them, into as many bytes.
pub fn verdicts_into(pages: &[Record], hint: Pair, window: &Window, bytes: &mut [u8]) -> Result<(), Refusal> {
    let mut fault = Fault::default();
    let status = unsafe {
        pagebounds_verdicts(
            pages.as_ptr(),
            pages.len(),
            &hint,
            &window.into(),
            bytes.as_mut_ptr(),
            bytes.len(),
            &mut fault,
        )
    };
    answer(status, fault)
}

/// The verdict on each page. A page that is refused does not keep the others from theirs.
pub fn verdicts(pages: &[Record], hint: Pair, window: &Window) -> Result<Vec<Verdict>, Refusal> {
    let mut bytes = vec![0; pages.len()];
    verdicts_into(pages, hint, window, &mut bytes)?;
    Ok(bytes.into_iter().map(|byte| Verdict::from_byte(byte).expect("one of the four bytes")).collect())
}

#[cfg(test)]
#[path = "tests.rs"]
mod tests;
