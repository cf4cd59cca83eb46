//! Stands in for tessstep-math, which was not published with the source. It holds the
//! names that the source's text needs. The oracle's answers rest on `Point::new`,
//! `Vector::new` and their two readers alone.
use std::convert::Infallible;
use std::fmt;
use std::marker::PhantomData;

#[derive(Clone, Copy, Debug, PartialEq, Eq)]
pub enum Error {
    NonFinite,
    ZeroDirection,
    ParallelAxes,
}
impl fmt::Display for Error {
    fn fmt(&self, f: &mut fmt::Formatter<'_>) -> fmt::Result {
        write!(f, "{self:?}")
    }
}
impl std::error::Error for Error {}

/// A tag for the coordinates' frame; the tags carry no data.
pub trait Space: Copy + fmt::Debug + PartialEq {}
#[derive(Clone, Copy, Debug, PartialEq)]
pub struct ModelSpace;
#[derive(Clone, Copy, Debug, PartialEq)]
pub struct ParameterSpace;
impl Space for ModelSpace {}
impl Space for ParameterSpace {}

fn finite<const N: usize>(numbers: [f64; N]) -> Result<[f64; N], Error> {
    if numbers.iter().all(|x| x.is_finite()) {
        Ok(numbers)
    } else {
        Err(Error::NonFinite)
    }
}

#[derive(Clone, Copy, Debug, PartialEq)]
pub struct Point<S: Space, const N: usize>([f64; N], PhantomData<S>);
pub type Point3<S> = Point<S, 3>;
impl<S: Space, const N: usize> Point<S, N> {
    pub fn new(coordinates: [f64; N]) -> Result<Self, Error> {
        Ok(Self(finite(coordinates)?, PhantomData))
    }
    pub fn coordinates(self) -> [f64; N] {
        self.0
    }
    pub fn translated(self, by: Vector<S, N>) -> Result<Self, Error> {
        Self::new(std::array::from_fn(|i| self.0[i] + by.0[i]))
    }
    pub fn distance(self, other: Self) -> Result<f64, Error> {
        Vector::<S, N>::new(std::array::from_fn(|i| self.0[i] - other.0[i]))?.norm()
    }
}

#[derive(Clone, Copy, Debug, PartialEq)]
pub struct Vector<S: Space, const N: usize>([f64; N], PhantomData<S>);
pub type Vector3<S> = Vector<S, 3>;
impl<S: Space, const N: usize> Vector<S, N> {
    pub fn new(components: [f64; N]) -> Result<Self, Error> {
        Ok(Self(finite(components)?, PhantomData))
    }
    pub fn components(self) -> [f64; N] {
        self.0
    }
    pub fn scaled(self, by: f64) -> Result<Self, Error> {
        Self::new(self.0.map(|x| x * by))
    }
    pub fn added(self, other: Self) -> Result<Self, Error> {
        Self::new(std::array::from_fn(|i| self.0[i] + other.0[i]))
    }
    pub fn norm(self) -> Result<f64, Error> {
        let [norm] = finite([self.0.iter().map(|x| x * x).sum::<f64>().sqrt()])?;
        Ok(norm)
    }
}
impl<S: Space> Vector3<S> {
    pub fn cross(self, other: Self) -> Result<Self, Error> {
        let (a, b) = (self.0, other.0);
        Self::new([
            a[1] * b[2] - a[2] * b[1],
            a[2] * b[0] - a[0] * b[2],
            a[0] * b[1] - a[1] * b[0],
        ])
    }
    pub fn normalized(self) -> Result<Direction3<S>, Error> {
        let norm = self.norm()?;
        if norm == 0. {
            return Err(Error::ZeroDirection);
        }
        Ok(Direction3(self.scaled(1. / norm)?))
    }
}

#[derive(Clone, Copy, Debug, PartialEq)]
pub struct Direction3<S: Space>(Vector3<S>);
impl<S: Space> Direction3<S> {
    pub fn vector(self) -> Vector3<S> {
        self.0
    }
}

/// No affine map is ever made.
#[derive(Clone, Copy, Debug, PartialEq)]
pub struct Affine3<S: Space, T: Space>(Infallible, PhantomData<(S, T)>);
impl<S: Space, T: Space> Affine3<S, T> {
    pub fn transform_point(self, _: Point3<S>) -> Result<Point3<T>, Error> {
        match self.0 {}
    }
    pub fn transform_vector(self, _: Vector3<S>) -> Result<Vector3<T>, Error> {
        match self.0 {}
    }
}

/// No angle is ever made.
#[derive(Clone, Copy, Debug, PartialEq)]
pub struct Angle(Infallible);
impl Angle {
    pub fn as_radians(self) -> f64 {
        match self.0 {}
    }
}

#[derive(Clone, Copy, Debug, PartialEq)]
pub struct Length(f64);
impl Length {
    pub fn metres(metres: f64) -> Result<Self, Error> {
        let [metres] = finite([metres])?;
        Ok(Self(metres))
    }
    pub fn as_metres(self) -> f64 {
        self.0
    }
}

#[derive(Clone, Copy, Debug, Default, PartialEq)]
pub struct NumericalTolerance;
impl NumericalTolerance {
    pub fn relative(self) -> f64 {
        1e-12
    }
}
