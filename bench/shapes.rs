//! The shapes that are measured, as bytes, and where their ordinates lie.

/// The same numbers on every run.
pub struct Random(u64);

impl Random {
    pub fn new(seed: u64) -> Random {
        Random(seed)
    }

    /// From lo up to hi.
    pub fn between(&mut self, lo: f64, hi: f64) -> f64 {
        self.0 = self.0.wrapping_mul(6364136223846793005).wrapping_add(1442695040888963407);
        lo + (hi - lo) * ((self.0 >> 11) as f64 / (1u64 << 53) as f64)
    }
}

#[derive(Clone, Copy)]
pub struct Form {
    pub little: bool,
    /// 2 for xy, 4 for xyzm
    pub axes: usize,
}

/// One or more shapes, with the first byte and the count of each run of packed points.
pub struct Sample {
    pub form: Form,
    pub shapes: Vec<Vec<u8>>,
    /// for each shape
    pub runs: Vec<Vec<(usize, usize)>>,
    pub points: usize,
}

struct Writer {
    form: Form,
    random: Random,
    bytes: Vec<u8>,
    runs: Vec<(usize, usize)>,
}

impl Writer {
    fn u32(&mut self, n: u32) {
        self.bytes.extend(if self.form.little { n.to_le_bytes() } else { n.to_be_bytes() });
    }

    fn header(&mut self, kind: u32) {
        self.bytes.push(u8::from(self.form.little));
        self.u32(if self.form.axes == 4 { 3000 + kind } else { kind });
    }

    fn ordinate(&mut self, v: f64) {
        self.bytes.extend(if self.form.little { v.to_le_bytes() } else { v.to_be_bytes() });
    }

    /// x and y within 80 of 0, so that the told pair of x does not wrap.
    fn points(&mut self, count: usize) {
        self.runs.push((self.bytes.len(), count));
        for _ in 0..count {
            for axis in 0..self.form.axes {
                let v = self.random.between(-80.0, if axis < 2 { 80.0 } else { 1000.0 });
                self.ordinate(v);
            }
        }
    }

    /// A ring, which ends where it begins.
    fn ring(&mut self, count: usize) {
        self.u32(count as u32);
        let start = self.bytes.len();
        self.points(count - 1);
        let first = self.bytes[start..start + 8 * self.form.axes].to_vec();
        self.bytes.extend(first);
        self.runs.last_mut().expect("a run").1 = count;
    }

    fn point(&mut self) {
        self.header(1);
        self.points(1);
    }

    fn line(&mut self, count: usize) {
        self.header(2);
        self.u32(count as u32);
        self.points(count);
    }

    /// Gives x and y of the second and the third point of the last run ends that no other point reaches.
    fn stretch(&mut self) {
        let start = self.runs.last().expect("a run").0;
        for (place, v) in [(1, -80.5f64), (2, 80.5)] {
            let at = start + 8 * self.form.axes * place;
            let field = if self.form.little { v.to_le_bytes() } else { v.to_be_bytes() };
            self.bytes[at..at + 8].copy_from_slice(&field);
            self.bytes[at + 8..at + 16].copy_from_slice(&field);
        }
    }

    /// The outer ring reaches beyond the others, as in a valid polygon: GEOS looks at no other.
    fn polygon(&mut self, rings: usize, count: usize) {
        self.header(3);
        self.u32(rings as u32);
        self.ring(count);
        self.stretch();
        for _ in 1..rings {
            self.ring(count);
        }
    }

    fn multipoint(&mut self, count: usize) {
        self.header(4);
        self.u32(count as u32);
        for _ in 0..count {
            self.point();
        }
    }

    /// Collections down to that level, each of which holds the next; the last holds a point.
    fn chain(&mut self, levels: usize) {
        for _ in 0..levels {
            self.header(7);
            self.u32(1);
        }
        self.point();
    }

    /// Chains from level 2 to level 32 side by side.
    fn deep(&mut self, parts: usize) {
        self.header(7);
        self.u32(parts as u32);
        for _ in 0..parts {
            self.chain(30);
        }
    }

    /// Points and short lines side by side.
    fn wide(&mut self, parts: usize) {
        self.header(7);
        self.u32(2 * parts as u32);
        for _ in 0..parts {
            self.point();
            self.line(4);
        }
    }
}

#[derive(Clone, Copy, PartialEq)]
pub enum Shape {
    /// so many points, each a shape of its own
    Points(usize),
    Line(usize),
    /// rings, and points in each
    Polygon(usize, usize),
    MultiPoint(usize),
    Deep(usize),
    Wide(usize),
}

impl Shape {
    pub fn name(self) -> String {
        match self {
            Shape::Points(n) => format!("{n} single points"),
            Shape::Line(n) => format!("line, {n} points"),
            Shape::Polygon(rings, n) => format!("polygon, {rings} rings of {n}"),
            Shape::MultiPoint(n) => format!("multipoint, {n}"),
            Shape::Deep(n) => format!("deep collection, {n} chains to level 32"),
            Shape::Wide(n) => format!("wide collection, {n} points and {n} lines of 4"),
        }
    }

    pub fn sample(self, form: Form) -> Sample {
        let mut writer = Writer { form, random: Random::new(1), bytes: Vec::new(), runs: Vec::new() };
        let (mut shapes, mut runs) = (Vec::new(), Vec::new());
        let count = if let Shape::Points(n) = self { n } else { 1 };
        for _ in 0..count {
            match self {
                Shape::Points(_) => writer.point(),
                Shape::Line(n) => writer.line(n),
                Shape::Polygon(rings, n) => writer.polygon(rings, n),
                Shape::MultiPoint(n) => writer.multipoint(n),
                Shape::Deep(n) => writer.deep(n),
                Shape::Wide(n) => writer.wide(n),
            }
            shapes.push(std::mem::take(&mut writer.bytes));
            runs.push(std::mem::take(&mut writer.runs));
        }
        let points = runs.iter().flatten().map(|run: &(usize, usize)| run.1).sum();
        Sample { form, shapes, runs, points }
    }
}
