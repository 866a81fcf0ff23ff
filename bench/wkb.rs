//! A stand-in for the reader that bounding.rs imports from the crate `wkb`. It reads by the rules of docs/WKB.md, and, so that
//! the original is not slowed down by its reader, it borrows the bytes and reads an ordinate when it is asked for: only lists of
//! rings and of parts are allocated, and none for the points of a multipoint.

pub mod reader {
    use geo_traits::*;
    use std::fmt;

    /// The number of a refusal and the place of its byte.
    #[derive(Clone, Copy, Debug)]
    pub struct Fault {
        pub number: u8,
        pub place: usize,
    }

    impl fmt::Display for Fault {
        fn fmt(&self, f: &mut fmt::Formatter) -> fmt::Result {
            write!(f, "refused {} layer 1 place {}", self.number, self.place)
        }
    }

    impl std::error::Error for Fault {}

    /// The bytes of a coordinate's ordinates.
    #[derive(Clone, Copy)]
    pub struct Coord<'a> {
        bytes: &'a [u8],
        little: bool,
    }

    /// The bytes of a line's or ring's coordinates, each of so many bytes.
    #[derive(Clone, Copy)]
    pub struct Line<'a> {
        bytes: &'a [u8],
        little: bool,
        width: usize,
    }

    pub struct Polygon<'a>(Vec<Line<'a>>);

    /// The bytes of a multipoint's parts, which were checked.
    pub struct Points<'a> {
        bytes: &'a [u8],
        dim: Dimensions,
        width: usize,
    }

    /// The parts of a shape of kinds 5 to 7.
    pub struct Parts<'a>(Vec<Wkb<'a>>);

    enum Body<'a> {
        Point(Coord<'a>),
        Line(Line<'a>),
        Polygon(Polygon<'a>),
        Points(Points<'a>),
        Parts(Parts<'a>),
    }

    pub struct Wkb<'a> {
        kind: u32,
        dim: Dimensions,
        body: Body<'a>,
    }

    impl<'a> Wkb<'a> {
        pub fn try_new(bytes: &'a [u8]) -> Result<Self, Fault> {
            let mut reader = Reader { bytes, at: 0 };
            let shape = reader.shape(1, None)?;
            if reader.at < bytes.len() {
                return Err(reader.fault(6));
            }
            Ok(shape)
        }
    }

    /// Reads one thing after another at a position.
    struct Reader<'a> {
        bytes: &'a [u8],
        at: usize,
    }

    fn u32_of(field: [u8; 4], little: bool) -> u32 {
        if little { u32::from_le_bytes(field) } else { u32::from_be_bytes(field) }
    }

    fn f64_of(field: [u8; 8], little: bool) -> f64 {
        if little { f64::from_le_bytes(field) } else { f64::from_be_bytes(field) }
    }

    fn width(dim: Dimensions) -> usize {
        match dim {
            Dimensions::Xy => 16,
            Dimensions::Xyzm => 32,
            _ => 24,
        }
    }

    impl<'a> Reader<'a> {
        fn fault(&self, number: u8) -> Fault {
            Fault { number, place: self.at }
        }

        fn field<const N: usize>(&mut self) -> Result<[u8; N], Fault> {
            let field = self.bytes[self.at..].first_chunk::<N>().ok_or(self.fault(1))?;
            self.at += N;
            Ok(*field)
        }

        fn u32(&mut self, little: bool) -> Result<u32, Fault> {
            Ok(u32_of(self.field()?, little))
        }

        /// So many fields of eight bytes.
        fn eights(&mut self, count: usize) -> Result<&'a [u8], Fault> {
            let rest = &self.bytes[self.at..];
            let whole = rest.len() / 8;
            if whole < count {
                return Err(Fault { number: 1, place: self.at + 8 * whole });
            }
            self.at += 8 * count;
            Ok(&rest[..8 * count])
        }

        fn line(&mut self, little: bool, dim: Dimensions) -> Result<Line<'a>, Fault> {
            let count = self.u32(little)? as usize;
            let width = width(dim);
            Ok(Line { bytes: self.eights(count * (width / 8))?, little, width })
        }

        fn header(&mut self, level: u32, outer: Option<(u32, Dimensions)>) -> Result<(bool, u32, Dimensions), Fault> {
            if level > 32 {
                return Err(self.fault(5));
            }
            let start = self.at;
            let [order] = self.field()?;
            if order > 1 {
                return Err(Fault { number: 2, place: start });
            }
            let little = order == 1;
            let place = self.at;
            let code = self.u32(little)?;
            let kind = code % 1000;
            let dim = match code / 1000 {
                0 => Dimensions::Xy,
                1 => Dimensions::Xyz,
                2 => Dimensions::Xym,
                3 => Dimensions::Xyzm,
                _ => return Err(Fault { number: 3, place }),
            };
            if !(1..=7).contains(&kind) {
                return Err(Fault { number: 3, place });
            }
            if let Some((container, dimension)) = outer {
                if dim != dimension || (container < 7 && container != kind + 3) {
                    return Err(Fault { number: 4, place });
                }
            }
            Ok((little, kind, dim))
        }

        fn shape(&mut self, level: u32, outer: Option<(u32, Dimensions)>) -> Result<Wkb<'a>, Fault> {
            let (little, kind, dim) = self.header(level, outer)?;
            let body = match kind {
                1 => Body::Point(Coord { bytes: self.eights(width(dim) / 8)?, little }),
                2 => Body::Line(self.line(little, dim)?),
                3 => {
                    let count = self.u32(little)?;
                    Body::Polygon(Polygon((0..count).map(|_| self.line(little, dim)).collect::<Result<_, _>>()?))
                }
                4 => {
                    let count = self.u32(little)?;
                    let start = self.at;
                    for _ in 0..count {
                        self.header(level + 1, Some((4, dim)))?;
                        self.eights(width(dim) / 8)?;
                    }
                    Body::Points(Points { bytes: &self.bytes[start..self.at], dim, width: width(dim) })
                }
                _ => {
                    let count = self.u32(little)?;
                    let parts = (0..count).map(|_| self.shape(level + 1, Some((kind, dim))));
                    Body::Parts(Parts(parts.collect::<Result<_, _>>()?))
                }
            };
            Ok(Wkb { kind, dim, body })
        }
    }

    impl CoordTrait for Coord<'_> {
        type T = f64;

        unsafe fn nth_unchecked(&self, n: usize) -> f64 {
            let field = unsafe { self.bytes.as_ptr().add(8 * n).cast::<[u8; 8]>().read() };
            f64_of(field, self.little)
        }
    }

    impl PointTrait for Coord<'_> {
        type T = f64;
        type CoordType<'b>
            = Coord<'b>
        where
            Self: 'b;

        fn coord(&self) -> Option<Coord<'_>> {
            Some(*self)
        }
    }

    impl LineStringTrait for Line<'_> {
        type T = f64;
        type CoordType<'b>
            = Coord<'b>
        where
            Self: 'b;

        fn coords(&self) -> impl Iterator<Item = Coord<'_>> {
            self.bytes.chunks_exact(self.width).map(|bytes| Coord { bytes, little: self.little })
        }
    }

    impl PolygonTrait for Polygon<'_> {
        type T = f64;
        type RingType<'b>
            = Line<'b>
        where
            Self: 'b;

        fn exterior(&self) -> Option<Line<'_>> {
            self.0.first().copied()
        }

        fn interiors(&self) -> impl Iterator<Item = Line<'_>> {
            self.0.iter().skip(1).copied()
        }
    }

    impl MultiPointTrait for Points<'_> {
        type T = f64;
        type PointType<'b>
            = Wkb<'b>
        where
            Self: 'b;

        fn points(&self) -> impl Iterator<Item = Wkb<'_>> {
            self.bytes.chunks_exact(5 + self.width).map(|part| Wkb {
                kind: 1,
                dim: self.dim,
                body: Body::Point(Coord { bytes: &part[5..], little: part[0] == 1 }),
            })
        }
    }

    impl MultiLineStringTrait for Parts<'_> {
        type T = f64;
        type LineStringType<'b>
            = &'b Wkb<'b>
        where
            Self: 'b;

        fn line_strings(&self) -> impl Iterator<Item = &Wkb<'_>> {
            self.0.iter()
        }
    }

    impl MultiPolygonTrait for Parts<'_> {
        type T = f64;
        type PolygonType<'b>
            = &'b Wkb<'b>
        where
            Self: 'b;

        fn polygons(&self) -> impl Iterator<Item = &Wkb<'_>> {
            self.0.iter()
        }
    }

    impl GeometryCollectionTrait for Parts<'_> {
        type T = f64;
        type GeometryType<'b>
            = &'b Wkb<'b>
        where
            Self: 'b;

        fn geometries(&self) -> impl Iterator<Item = &Wkb<'_>> {
            self.0.iter()
        }
    }

    type Kinds<'r, 'a> =
        GeometryType<'r, Coord<'a>, Line<'a>, Polygon<'a>, Points<'a>, Parts<'a>, Parts<'a>, Parts<'a>>;

    impl<'a> Wkb<'a> {
        fn kinds(&self) -> Kinds<'_, 'a> {
            match (&self.body, self.kind) {
                (Body::Point(point), _) => GeometryType::Point(point),
                (Body::Line(line), _) => GeometryType::LineString(line),
                (Body::Polygon(polygon), _) => GeometryType::Polygon(polygon),
                (Body::Points(points), _) => GeometryType::MultiPoint(points),
                (Body::Parts(parts), 5) => GeometryType::MultiLineString(parts),
                (Body::Parts(parts), 6) => GeometryType::MultiPolygon(parts),
                (Body::Parts(parts), _) => GeometryType::GeometryCollection(parts),
            }
        }
    }

    impl<'a> GeometryTrait for Wkb<'a> {
        type T = f64;
        type Point = Coord<'a>;
        type LineString = Line<'a>;
        type Polygon = Polygon<'a>;
        type MultiPoint = Points<'a>;
        type MultiLineString = Parts<'a>;
        type MultiPolygon = Parts<'a>;
        type GeometryCollection = Parts<'a>;

        fn dim(&self) -> Dimensions {
            self.dim
        }

        fn as_type(&self) -> Kinds<'_, 'a> {
            self.kinds()
        }
    }

    impl<'a> GeometryTrait for &Wkb<'a> {
        type T = f64;
        type Point = Coord<'a>;
        type LineString = Line<'a>;
        type Polygon = Polygon<'a>;
        type MultiPoint = Points<'a>;
        type MultiLineString = Parts<'a>;
        type MultiPolygon = Parts<'a>;
        type GeometryCollection = Parts<'a>;

        fn dim(&self) -> Dimensions {
            self.dim
        }

        fn as_type(&self) -> Kinds<'_, 'a> {
            self.kinds()
        }
    }
}
