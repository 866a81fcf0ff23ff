//! A stand-in for what bounding.rs imports from the crate `geo_traits`: the same names, with owned
//! parts in place of borrowed ones.

#[derive(Clone, Copy, Debug, PartialEq)]
pub enum Dimensions {
    Xy,
    Xyz,
    Xym,
    Xyzm,
    Unknown(usize),
}

pub trait CoordTrait {
    type T;

    /// The ordinate at that place.
    ///
    /// # Safety
    /// The coordinate has that many ordinates.
    unsafe fn nth_unchecked(&self, n: usize) -> Self::T;
}

pub trait PointTrait {
    type T;
    type CoordType: CoordTrait<T = Self::T>;

    fn coord(&self) -> Option<Self::CoordType>;
}

pub trait LineStringTrait {
    type T;
    type CoordType: CoordTrait<T = Self::T>;

    fn coords(&self) -> impl Iterator<Item = Self::CoordType>;
}

pub trait PolygonTrait {
    type T;
    type RingType: LineStringTrait<T = Self::T>;

    fn exterior(&self) -> Option<Self::RingType>;
    fn interiors(&self) -> impl Iterator<Item = Self::RingType>;
}

pub trait MultiPointTrait {
    type T;
    type PointType: GeometryTrait<T = Self::T>;

    fn points(&self) -> impl Iterator<Item = Self::PointType>;
}

pub trait MultiLineStringTrait {
    type T;
    type LineStringType: GeometryTrait<T = Self::T>;

    fn line_strings(&self) -> impl Iterator<Item = Self::LineStringType>;
}

pub trait MultiPolygonTrait {
    type T;
    type PolygonType: GeometryTrait<T = Self::T>;

    fn polygons(&self) -> impl Iterator<Item = Self::PolygonType>;
}

pub trait GeometryCollectionTrait {
    type T;
    type GeometryType: GeometryTrait<T = Self::T>;

    fn geometries(&self) -> impl Iterator<Item = Self::GeometryType>;
}

pub enum GeometryType<'a, P, L, Y, MP, ML, MY, C> {
    Point(&'a P),
    LineString(&'a L),
    Polygon(&'a Y),
    MultiPoint(&'a MP),
    MultiLineString(&'a ML),
    MultiPolygon(&'a MY),
    GeometryCollection(&'a C),
    Other,
}

pub trait GeometryTrait {
    type T;
    type Point: PointTrait<T = Self::T>;
    type LineString: LineStringTrait<T = Self::T>;
    type Polygon: PolygonTrait<T = Self::T>;
    type MultiPoint: MultiPointTrait<T = Self::T>;
    type MultiLineString: MultiLineStringTrait<T = Self::T>;
    type MultiPolygon: MultiPolygonTrait<T = Self::T>;
    type GeometryCollection: GeometryCollectionTrait<T = Self::T>;

    fn dim(&self) -> Dimensions;

    #[allow(clippy::type_complexity)]
    fn as_type(
        &self,
    ) -> GeometryType<
        '_,
        Self::Point,
        Self::LineString,
        Self::Polygon,
        Self::MultiPoint,
        Self::MultiLineString,
        Self::MultiPolygon,
        Self::GeometryCollection,
    >;
}
