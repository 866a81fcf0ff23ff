//! A stand-in for what bounding.rs imports from the crate `geo_traits`: the same names, with borrowed parts as there.

#[derive(Clone, Copy, Debug, PartialEq)]
pub enum Dimensions {
    Xy,
    Xyz,
    Xym,
    Xyzm,
    Unknown(usize),
}

pub trait CoordTrait {
    type T;

    /// The ordinate at that place.
    ///
    /// # Safety
    /// The coordinate has that many ordinates.
    unsafe fn nth_unchecked(&self, n: usize) -> Self::T;
}

pub trait PointTrait {
    type T;
    type CoordType<'a>: CoordTrait<T = Self::T>
    where
        Self: 'a;

    fn coord(&self) -> Option<Self::CoordType<'_>>;
}

pub trait LineStringTrait {
    type T;
    type CoordType<'a>: CoordTrait<T = Self::T>
    where
        Self: 'a;

    fn coords(&self) -> impl Iterator<Item = Self::CoordType<'_>>;
}

pub trait PolygonTrait {
    type T;
    type RingType<'a>: LineStringTrait<T = Self::T>
    where
        Self: 'a;

    fn exterior(&self) -> Option<Self::RingType<'_>>;
    fn interiors(&self) -> impl Iterator<Item = Self::RingType<'_>>;
}

pub trait MultiPointTrait {
    type T;
    type PointType<'a>: GeometryTrait<T = Self::T>
    where
        Self: 'a;

    fn points(&self) -> impl Iterator<Item = Self::PointType<'_>>;
}

pub trait MultiLineStringTrait {
    type T;
    type LineStringType<'a>: GeometryTrait<T = Self::T>
    where
        Self: 'a;

    fn line_strings(&self) -> impl Iterator<Item = Self::LineStringType<'_>>;
}

pub trait MultiPolygonTrait {
    type T;
    type PolygonType<'a>: GeometryTrait<T = Self::T>
    where
        Self: 'a;

    fn polygons(&self) -> impl Iterator<Item = Self::PolygonType<'_>>;
}

pub trait GeometryCollectionTrait {
    type T;
    type GeometryType<'a>: GeometryTrait<T = Self::T>
    where
        Self: 'a;

    fn geometries(&self) -> impl Iterator<Item = Self::GeometryType<'_>>;
}

pub enum GeometryType<'a, P, L, Y, MP, ML, MY, C> {
    Point(&'a P),
    LineString(&'a L),
    Polygon(&'a Y),
    MultiPoint(&'a MP),
    MultiLineString(&'a ML),
    MultiPolygon(&'a MY),
    GeometryCollection(&'a C),
    Other,
}

pub trait GeometryTrait {
    type T;
    type Point: PointTrait<T = Self::T>;
    type LineString: LineStringTrait<T = Self::T>;
    type Polygon: PolygonTrait<T = Self::T>;
    type MultiPoint: MultiPointTrait<T = Self::T>;
    type MultiLineString: MultiLineStringTrait<T = Self::T>;
    type MultiPolygon: MultiPolygonTrait<T = Self::T>;
    type GeometryCollection: GeometryCollectionTrait<T = Self::T>;

    fn dim(&self) -> Dimensions;

    #[allow(clippy::type_complexity)]
    fn as_type(
        &self,
    ) -> GeometryType<
        '_,
        Self::Point,
        Self::LineString,
        Self::Polygon,
        Self::MultiPoint,
        Self::MultiLineString,
        Self::MultiPolygon,
        Self::GeometryCollection,
    >;
}
