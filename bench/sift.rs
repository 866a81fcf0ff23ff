//! The verdicts of 1,000 windows on closed pages.

use crate::measure;
use crate::shapes::Random;
use crate::ways::MAP;
use pagebounds::{Kind, Pair, Record, Window};

pub struct Row {
    pub pages: usize,
    /// seconds for one window over all pages: ordinary windows, windows that may wrap, and all verdicts by a plain test
    pub seconds: [f64; 3],
    /// how many of the verdicts keep the page
    pub kept: f64,
}

fn point(x: f64, y: f64) -> Vec<u8> {
    [&[1, 1, 0, 0, 0][..], &x.to_le_bytes(), &y.to_le_bytes()].concat()
}

/// Pages of ten points each, near each other.
fn pages(count: usize) -> Vec<Record> {
    let mut random = Random::new(2);
    let page = |random: &mut Random| {
        let (x, y) = (random.between(-80.0, 75.0), random.between(-80.0, 75.0));
        let mut record = Record::empty();
        for _ in 0..10 {
            let bytes = point(x + random.between(0.0, 5.0), y + random.between(0.0, 5.0));
            record.add(&bytes, MAP).expect("a point");
        }
        record
    };
    (0..count).map(|_| page(&mut random)).collect()
}

fn windows(kind: Kind) -> Vec<Window> {
    let mut random = Random::new(3);
    let side = |random: &mut Random| {
        let lo = random.between(-85.0, 80.0);
        Pair::new(lo, lo + random.between(1.0, 20.0))
    };
    (0..1000).map(|_| Window { kind, x: side(&mut random), y: side(&mut random), z: None, m: None }).collect()
}

/// Whether the bounds meet, by four comparisons on bounds that were told before.
fn plain(bounds: &[[f64; 4]], window: &Window, bytes: &mut [u8]) {
    for (b, byte) in bounds.iter().zip(bytes) {
        let met = (b[0] <= window.x.hi) & (window.x.lo <= b[1]) & (b[2] <= window.y.hi) & (window.y.lo <= b[3]);
        *byte = u8::from(met);
    }
}

pub fn row(count: usize, rounds: usize) -> Row {
    let pages = pages(count);
    let bounds: Vec<[f64; 4]> = pages
        .iter()
        .map(|page| {
            let told = page.tell(MAP).expect("a record");
            let (x, y) = (told.x.expect("values"), told.y.expect("values"));
            [x.lo, x.hi, y.lo, y.hi]
        })
        .collect();
    let (ordinary, wrapping) = (windows(Kind::Ordinary), windows(Kind::Wraparound));
    let (mut a, mut b, mut c) = (vec![0; count], vec![0; count], vec![0; count]);
    let mut kept = 0usize;
    for (o, w) in ordinary.iter().zip(&wrapping) {
        pagebounds::verdicts_into(&pages, MAP, o, &mut a).expect("a window");
        pagebounds::verdicts_into(&pages, MAP, w, &mut b).expect("a window");
        plain(&bounds, o, &mut c);
        assert!(a == b && a == c, "the verdicts differ");
        kept += a.iter().filter(|byte| **byte == 1).count();
    }
    let ask = |windows: &[Window], bytes: &mut [u8]| {
        for window in windows {
            pagebounds::verdicts_into(&pages, MAP, window, bytes).expect("a window");
        }
        f64::from(bytes[0])
    };
    let seconds = measure::medians(
        rounds,
        [
            &mut || ask(&ordinary, &mut a),
            &mut || ask(&wrapping, &mut b),
            &mut || {
                for window in &ordinary {
                    plain(&bounds, window, std::hint::black_box(&mut c));
                }
                f64::from(c[0])
            },
        ],
    );
    Row { pages: count, seconds: seconds.map(|s| s / 1000.0), kept: kept as f64 / (1000 * count) as f64 }
}
