//! Worked cases, refusals and misuses of the wrapper.

use super::*;

const MAP: Pair = Pair::new(-180.0, 180.0);

fn point(x: f64, y: f64) -> Vec<u8> {
    [&[1, 1, 0, 0, 0][..], &x.to_le_bytes(), &y.to_le_bytes()].concat()
}

/// A big-endian xyzm line.
fn line(points: &[[f64; 4]]) -> Vec<u8> {
    let mut bytes = vec![0];
    bytes.extend(3002u32.to_be_bytes());
    bytes.extend((points.len() as u32).to_be_bytes());
    bytes.extend(points.iter().flatten().flat_map(|v| v.to_be_bytes()));
    bytes
}

fn page(xs: &[f64]) -> Record {
    let mut record = Record::empty();
    for &x in xs {
        record.add(&point(x, 1.0), MAP).expect("a point");
    }
    record
}

fn told_x(xs: &[f64]) -> Option<Pair> {
    page(xs).tell(MAP).expect("a record").x
}

fn fault(number: u32, layer: u32, place: usize) -> Fault {
    Fault { number, layer, place }
}

fn window(kind: Kind, x: Pair) -> Window {
    Window { kind, x, y: Pair::new(0.0, 2.0), z: None, m: None }
}

#[test]
fn bytes_are_checked() {
    let mut bytes = point(10.0, 20.0);
    assert_eq!(check(&bytes), Ok(()));
    assert_eq!(check(&[]), Err(fault(1, 1, 0)));
    assert_eq!(check(&bytes[..20]), Err(fault(1, 1, 13)));
    bytes.push(0);
    assert_eq!(check(&bytes), Err(fault(6, 1, 21)));
    assert_eq!(check(&bytes).unwrap_err().to_string(), "refused 6 layer 1 place 21");
}

#[test]
fn thirty_two_levels() {
    let level = [1, 7, 0, 0, 0, 1, 0, 0, 0];
    let mut bytes = level.repeat(32);
    assert_eq!(check(&bytes), Err(fault(5, 1, 288)));
    bytes[31 * 9 + 5] = 0;
    assert_eq!(check(&bytes), Ok(()));
}

#[test]
fn bounds_of_shapes() {
    let (told, record) = bounds(&point(10.0, 20.0), MAP).expect("a point");
    assert_eq!((told.x, told.y), (Some(Pair::new(10.0, 10.0)), Some(Pair::new(20.0, 20.0))));
    assert_eq!((told.z, told.m), (None, None));
    assert_eq!(record.tell(MAP), Ok(told));
    let (told, _) = bounds(&line(&[[1.0, 5.0, -3.0, 7.0], [2.0, 4.0, f64::NAN, 8.0]]), Pair::EMPTY).expect("a line");
    assert_eq!(told.z, Some(Pair::new(-3.0, -3.0)));
    assert_eq!(told.m, Some(Pair::new(7.0, 8.0)));
    assert_eq!(told.type_codes().collect::<Vec<_>>(), [3002]);
    assert_eq!(bounds(&[], MAP), Err(fault(1, 1, 0)));
}

#[test]
fn x_wraps() {
    assert_eq!(told_x(&[10.0]), Some(Pair::new(10.0, 10.0)));
    assert_eq!(told_x(&[-179.0, 179.0]), Some(Pair::new(179.0, -179.0)));
    assert_eq!(told_x(&[-179.0, 179.0, 0.0]), Some(Pair::new(-179.0, 179.0)));
    assert_eq!(told_x(&[-90.0, 90.0]), Some(Pair::new(90.0, -90.0)));
    assert_eq!(told_x(&[-89.0, 89.0]), Some(Pair::new(-89.0, 89.0)));
    assert_eq!(told_x(&[]), None);
}

#[test]
fn a_refused_shape_leaves_the_record() {
    let mut record = page(&[1.0]);
    assert_eq!(record.add(&[3], MAP), Err(Refusal::Fault(fault(2, 1, 0))));
    assert_eq!(record, page(&[1.0]));
    record.y.hi = f64::NAN;
    assert_eq!(record.add(&point(1.0, 1.0), MAP), Err(Refusal::Record));
    assert_eq!(record.tell(MAP), Err(Refusal::Record));
}

#[test]
fn windows() {
    let mut pages = [page(&[179.0, -179.0]), page(&[5.0]), page(&[]), page(&[50.0])];
    let wrapping = window(Kind::Wraparound, Pair::new(0.0, 10.0));
    let ordinary = window(Kind::Ordinary, Pair::new(0.0, 10.0));
    assert_eq!(pages[0].verdict(MAP, &wrapping), Ok(Verdict::Skip));
    assert_eq!(pages[0].verdict(MAP, &ordinary), Err(Refusal::Fault(fault(12, 4, 0))));
    assert_eq!(pages[1].verdict(MAP, &ordinary), Ok(Verdict::Keep));
    pages[3].codes = 1 << 28;
    use Verdict::*;
    assert_eq!(verdicts(&pages, MAP, &ordinary), Ok(vec![Refused, Keep, Skip, NoRecord]));
    assert_eq!(verdicts(&[], MAP, &ordinary), Ok(vec![]));
    let around = window(Kind::Wraparound, Pair::new(170.0, -170.0));
    assert_eq!(verdicts(&pages, MAP, &around), Ok(vec![Keep, Skip, Skip, NoRecord]));
    assert_eq!(verdicts_into(&pages, MAP, &around, &mut [0; 3]), Err(Refusal::Length));
}

#[test]
fn windows_that_are_refused() {
    let one = page(&[5.0]);
    let with = |x, z| one.verdict(MAP, &Window { z, ..window(Kind::Ordinary, x) });
    let x = Pair::new(0.0, 10.0);
    assert_eq!(with(x, None), Ok(Verdict::Keep));
    assert_eq!(with(x, Some(Pair::new(0.0, 1.0))), Ok(Verdict::Skip));
    assert_eq!(with(x, Some(Pair::new(0.0, f64::NAN))), Err(Refusal::Fault(fault(11, 4, 1))));
    assert_eq!(with(Pair::new(f64::NAN, 0.0), None), Err(Refusal::Fault(fault(11, 4, 0))));
    assert_eq!(with(Pair::new(10.0, 0.0), None), Err(Refusal::Fault(fault(12, 4, 0))));
}
