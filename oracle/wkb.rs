//! A stand-in for the reader that bounding.rs imports from the crate `wkb`. It reads by the rules of
//! docs/WKB.md, so that both programs compared read the same shapes and refuse the same bytes.

pub mod reader {
    use geo_traits::*;
    use std::fmt;

    /// The number of a refusal and the place of its byte.
    #[derive(Clone, Copy, Debug)]
    pub struct Fault {
        pub number: u8,
        pub place: usize,
    }

    impl fmt::Display for Fault {
        fn fmt(&self, f: &mut fmt::Formatter) -> fmt::Result {
            write!(f, "refused {} layer 1 place {}", self.number, self.place)
        }
    }

    impl std::error::Error for Fault {}

    /// The ordinates of a coordinate, as many as the dimension has.
    #[derive(Clone)]
    pub struct Coord(Vec<f64>);

    #[derive(Clone)]
    pub struct Line(Vec<Coord>);

    #[derive(Clone)]
    pub struct Polygon(Vec<Line>);

    /// The parts of a shape of kinds 4 to 7.
    #[derive(Clone)]
    pub struct Parts(Vec<Wkb>);

    #[derive(Clone)]
    enum Body {
        Point(Coord),
        Line(Line),
        Polygon(Polygon),
        Parts(Parts),
    }

    #[derive(Clone)]
    pub struct Wkb {
        kind: u32,
        dim: Dimensions,
        body: Body,
    }

    impl Wkb {
        pub fn try_new(bytes: &[u8]) -> Result<Self, Fault> {
            let mut reader = Reader { bytes, at: 0 };
            let shape = reader.shape(1, None)?;
            if reader.at < bytes.len() {
                return Err(reader.fault(6));
            }
            Ok(shape)
        }
    }

    /// Reads one thing after another at a position.
    struct Reader<'a> {
        bytes: &'a [u8],
        at: usize,
    }

    impl Reader<'_> {
        fn fault(&self, number: u8) -> Fault {
            Fault {
                number,
                place: self.at,
            }
        }

        fn field<const N: usize>(&mut self) -> Result<[u8; N], Fault> {
            let rest = &self.bytes[self.at..];
            let field = rest.first_chunk::<N>().ok_or(self.fault(1))?;
            self.at += N;
            Ok(*field)
        }

        fn u32(&mut self, little: bool) -> Result<u32, Fault> {
            let field = self.field()?;
            Ok(if little {
                u32::from_le_bytes(field)
            } else {
                u32::from_be_bytes(field)
            })
        }

        fn f64(&mut self, little: bool) -> Result<f64, Fault> {
            let field = self.field()?;
            Ok(if little {
                f64::from_le_bytes(field)
            } else {
                f64::from_be_bytes(field)
            })
        }

        fn coord(&mut self, little: bool, dim: Dimensions) -> Result<Coord, Fault> {
            let axes = match dim {
                Dimensions::Xy => 2,
                Dimensions::Xyzm => 4,
                _ => 3,
            };
            (0..axes).map(|_| self.f64(little)).collect::<Result<_, _>>().map(Coord)
        }

        fn line(&mut self, little: bool, dim: Dimensions) -> Result<Line, Fault> {
            let count = self.u32(little)?;
            (0..count).map(|_| self.coord(little, dim)).collect::<Result<_, _>>().map(Line)
        }

        fn polygon(&mut self, little: bool, dim: Dimensions) -> Result<Polygon, Fault> {
            let count = self.u32(little)?;
            (0..count).map(|_| self.line(little, dim)).collect::<Result<_, _>>().map(Polygon)
        }

        fn shape(&mut self, level: u32, outer: Option<(u32, Dimensions)>) -> Result<Wkb, Fault> {
            if level > 32 {
                return Err(self.fault(5));
            }
            let start = self.at;
            let [order] = self.field()?;
            if order > 1 {
                return Err(Fault { number: 2, place: start });
            }
            let little = order == 1;
            let place = self.at;
            let code = self.u32(little)?;
            let kind = code % 1000;
            let dim = match code / 1000 {
                0 => Dimensions::Xy,
                1 => Dimensions::Xyz,
                2 => Dimensions::Xym,
                3 => Dimensions::Xyzm,
                _ => return Err(Fault { number: 3, place }),
            };
            if !(1..=7).contains(&kind) {
                return Err(Fault { number: 3, place });
            }
            if let Some((container, dimension)) = outer {
                if dim != dimension || (container < 7 && container != kind + 3) {
                    return Err(Fault { number: 4, place });
                }
            }
            let body = match kind {
                1 => Body::Point(self.coord(little, dim)?),
                2 => Body::Line(self.line(little, dim)?),
                3 => Body::Polygon(self.polygon(little, dim)?),
                _ => {
                    let count = self.u32(little)?;
                    let parts = (0..count).map(|_| self.shape(level + 1, Some((kind, dim))));
                    Body::Parts(Parts(parts.collect::<Result<_, _>>()?))
                }
            };
            Ok(Wkb { kind, dim, body })
        }
    }

    impl CoordTrait for Coord {
        type T = f64;

        unsafe fn nth_unchecked(&self, n: usize) -> f64 {
            self.0[n]
        }
    }

    impl PointTrait for Coord {
        type T = f64;
        type CoordType = Coord;

        fn coord(&self) -> Option<Coord> {
            Some(self.clone())
        }
    }

    impl LineStringTrait for Line {
        type T = f64;
        type CoordType = Coord;

        fn coords(&self) -> impl Iterator<Item = Coord> {
            self.0.iter().cloned()
        }
    }

    impl PolygonTrait for Polygon {
        type T = f64;
        type RingType = Line;

        fn exterior(&self) -> Option<Line> {
            self.0.first().cloned()
        }

        fn interiors(&self) -> impl Iterator<Item = Line> {
            self.0.iter().skip(1).cloned()
        }
    }

    impl MultiPointTrait for Parts {
        type T = f64;
        type PointType = Wkb;

        fn points(&self) -> impl Iterator<Item = Wkb> {
            self.0.iter().cloned()
        }
    }

    impl MultiLineStringTrait for Parts {
        type T = f64;
        type LineStringType = Wkb;

        fn line_strings(&self) -> impl Iterator<Item = Wkb> {
            self.0.iter().cloned()
        }
    }

    impl MultiPolygonTrait for Parts {
        type T = f64;
        type PolygonType = Wkb;

        fn polygons(&self) -> impl Iterator<Item = Wkb> {
            self.0.iter().cloned()
        }
    }

    impl GeometryCollectionTrait for Parts {
        type T = f64;
        type GeometryType = Wkb;

        fn geometries(&self) -> impl Iterator<Item = Wkb> {
            self.0.iter().cloned()
        }
    }

    impl GeometryTrait for Wkb {
        type T = f64;
        type Point = Coord;
        type LineString = Line;
        type Polygon = Polygon;
        type MultiPoint = Parts;
        type MultiLineString = Parts;
        type MultiPolygon = Parts;
        type GeometryCollection = Parts;

        fn dim(&self) -> Dimensions {
            self.dim
        }

        fn as_type(
            &self,
        ) -> GeometryType<'_, Coord, Line, Polygon, Parts, Parts, Parts, Parts> {
            match (&self.body, self.kind) {
                (Body::Point(point), _) => GeometryType::Point(point),
                (Body::Line(line), _) => GeometryType::LineString(line),
                (Body::Polygon(polygon), _) => GeometryType::Polygon(polygon),
                (Body::Parts(parts), 4) => GeometryType::MultiPoint(parts),
                (Body::Parts(parts), 5) => GeometryType::MultiLineString(parts),
                (Body::Parts(parts), 6) => GeometryType::MultiPolygon(parts),
                (Body::Parts(parts), _) => GeometryType::GeometryCollection(parts),
            }
        }
    }
}
