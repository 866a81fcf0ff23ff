//! Measures our library against the original Rust, GEOS and a bare pass, on the same bytes in one process.

#[allow(dead_code)]
#[path = "../oracle/bounding.rs"]
mod bounding;
mod geos;
#[allow(dead_code)]
#[path = "../oracle/interval.rs"]
mod interval;
mod measure;
mod report;
mod shapes;
mod sift;
mod ways;

use shapes::{Form, Shape};

/// What was measured of one sample, in seconds for all of it.
pub struct Row {
    pub shape: Shape,
    pub form: Form,
    pub bytes: usize,
    pub points: usize,
    /// ours, the original, GEOS, the bare pass
    pub seconds: [f64; 4],
}

fn same(a: &[(f64, f64)], b: &[(f64, f64)]) -> bool {
    a.iter().zip(b).all(|(p, q)| p == q)
}

/// Stops unless every way tells the same bounds.
fn row(shape: Shape, form: Form, rounds: usize) -> Row {
    let sample = shape.sample(form);
    let reader = geos::Reader::new();
    let (ours, original, envelope, bare) =
        (ways::ours(&sample), ways::original(&sample), ways::geos(&reader, &sample), ways::bare(&sample));
    assert!(same(&ours, &original) && same(&ours, &envelope) && same(&ours, &bare), "the bounds differ: {}", shape.name());
    assert!(ours[0].0 < ours[0].1 && ours[1].0 < ours[1].1, "the bounds are of no use: {}", shape.name());
    let seconds = measure::medians(
        rounds,
        [
            &mut || ways::ours(&sample)[0].0,
            &mut || ways::original(&sample)[0].0,
            &mut || ways::geos(&reader, &sample)[0].0,
            &mut || ways::bare(&sample)[0].0,
        ],
    );
    let bytes = sample.shapes.iter().map(Vec::len).sum();
    Row { shape, form, bytes, points: sample.points, seconds }
}

const SHAPES: [Shape; 6] = [
    Shape::Points(10_000),
    Shape::Line(100_000),
    Shape::Polygon(1_000, 100),
    Shape::MultiPoint(100_000),
    Shape::Deep(2_000),
    Shape::Wide(20_000),
];

const FORMS: [Form; 4] = [
    Form { little: true, axes: 2 },
    Form { little: false, axes: 2 },
    Form { little: true, axes: 4 },
    Form { little: false, axes: 4 },
];

fn main() {
    let arguments: Vec<String> = std::env::args().skip(1).collect();
    let rounds = if arguments.iter().any(|a| a == "--quick") { 5 } else { 21 };
    let mut rows = Vec::new();
    for shape in SHAPES {
        for form in FORMS {
            rows.push(row(shape, form, rounds));
        }
    }
    let growth: Vec<Row> =
        [1_000, 10_000, 100_000, 1_000_000].map(|n| row(Shape::Line(n), FORMS[0], rounds)).into();
    let pages = [512, 1024, 2048, 4096].map(|n| sift::row(n, rounds));
    let text = report::tables(&rows, &growth, &pages);
    print!("{text}");
    if let Some(at) = arguments.iter().position(|a| a == "--markdown") {
        let path = arguments.get(at + 1).expect("--markdown FILE");
        report::record(path, &text).expect("the file can be written");
    }
}
