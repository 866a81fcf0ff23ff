//! The ways from bytes to bounds that are compared. Each answers the bounds of all shapes of a sample together.

use crate::bounding::GeometryBounder;
use crate::geos::Reader;
use crate::interval::{Interval, IntervalTrait};
use crate::shapes::Sample;
use pagebounds::{Pair, Record};

pub const MAP: Pair = Pair::new(-180.0, 180.0);

/// lo and hi of x, y, z and m, as many axes as a way tells.
pub type Found = Vec<(f64, f64)>;

fn pair(p: Option<Pair>) -> (f64, f64) {
    p.map_or((f64::INFINITY, f64::NEG_INFINITY), |p| (p.lo, p.hi))
}

/// Our library: one shape by `bounds`, several by `add` to one record.
pub fn ours(sample: &Sample) -> Found {
    let told = match &sample.shapes[..] {
        [shape] => pagebounds::bounds(shape, MAP).expect("a shape").0,
        shapes => {
            let mut record = Record::empty();
            for shape in shapes {
                record.add(shape, MAP).expect("a shape");
            }
            record.tell(MAP).expect("a record")
        }
    };
    vec![pair(told.x), pair(told.y), pair(told.z), pair(told.m)]
}

/// The original bounder.
pub fn original(sample: &Sample) -> Found {
    let mut bounder = GeometryBounder::empty().with_wraparound_hint((-180.0, 180.0));
    for shape in &sample.shapes {
        bounder.update_wkb(shape).expect("a shape");
    }
    let ends = |i: Interval| (i.lo(), i.hi());
    let x = bounder.x();
    vec![(x.lo(), x.hi()), ends(bounder.y()), ends(bounder.z()), ends(bounder.m())]
}

/// GEOS: read each shape, ask its extent, and let it go. It tells x and y.
pub fn geos(reader: &Reader, sample: &Sample) -> Found {
    let mut found = vec![(f64::INFINITY, f64::NEG_INFINITY); 2];
    for shape in &sample.shapes {
        let extent = reader.extent(shape).expect("a shape");
        for (all, one) in found.iter_mut().zip(extent) {
            all.0 = if one.0 < all.0 { one.0 } else { all.0 };
            all.1 = if one.1 > all.1 { one.1 } else { all.1 };
        }
    }
    found
}

fn span<const LITTLE: bool, const AXES: usize>(bytes: &[u8], found: &mut [(f64, f64); AXES]) {
    for point in bytes.chunks_exact(8 * AXES) {
        for axis in 0..AXES {
            let field: [u8; 8] = point[8 * axis..8 * axis + 8].try_into().expect("eight bytes");
            let v = if LITTLE { f64::from_le_bytes(field) } else { f64::from_be_bytes(field) };
            let (lo, hi) = found[axis];
            found[axis] = (if v < lo { v } else { lo }, if v > hi { v } else { hi });
        }
    }
}

fn pass<const LITTLE: bool, const AXES: usize>(sample: &Sample) -> Found {
    let mut found = [(f64::INFINITY, f64::NEG_INFINITY); AXES];
    for (shape, runs) in sample.shapes.iter().zip(&sample.runs) {
        for &(start, count) in runs {
            span::<LITTLE, AXES>(&shape[start..start + 8 * AXES * count], &mut found);
        }
    }
    found.to_vec()
}

/// A bare pass over the ordinates, which knows where they lie: nothing is read or tested besides.
pub fn bare(sample: &Sample) -> Found {
    match (sample.form.little, sample.form.axes) {
        (true, 2) => pass::<true, 2>(sample),
        (false, 2) => pass::<false, 2>(sample),
        (true, _) => pass::<true, 4>(sample),
        (false, _) => pass::<false, 4>(sample),
    }
}
