//! Stands in for the crate `nalgebra`: vectors of two numbers, with each float operation in nalgebra's order.

use serde::RoundTrip;
use std::ops::{Add, Index, Sub};

#[derive(Debug, Clone, Copy, PartialEq, Eq)]
pub struct Vector2<T> {
    pub x: T,
    pub y: T,
}

impl<T> Vector2<T> {
    pub fn new(x: T, y: T) -> Self {
        Vector2 { x, y }
    }
}

impl<T: Default> Vector2<T> {
    pub fn zeros() -> Self {
        Vector2::new(T::default(), T::default())
    }
}

impl Vector2<f32> {
    pub fn scale(&self, by: f32) -> Self {
        Vector2::new(self.x * by, self.y * by)
    }

    /// The norm is the root of x·x + y·y, and each coordinate is divided by it.
    pub fn normalize(&self) -> Self {
        let norm = (self.x * self.x + self.y * self.y).sqrt();
        Vector2::new(self.x / norm, self.y / norm)
    }
}

/// nalgebra converts between many types; the Rust converts whole numbers to floats only.
pub fn convert(v: Vector2<i32>) -> Vector2<f32> {
    Vector2::new(v.x as f32, v.y as f32)
}

impl<T> From<[T; 2]> for Vector2<T> {
    fn from([x, y]: [T; 2]) -> Self {
        Vector2::new(x, y)
    }
}

impl<T> From<Vector2<T>> for [T; 2] {
    fn from(v: Vector2<T>) -> Self {
        [v.x, v.y]
    }
}

impl<T: Add<Output = T>> Add for Vector2<T> {
    type Output = Self;

    fn add(self, other: Self) -> Self {
        Vector2::new(self.x + other.x, self.y + other.y)
    }
}

impl<T: Sub<Output = T>> Sub for Vector2<T> {
    type Output = Self;

    fn sub(self, other: Self) -> Self {
        Vector2::new(self.x - other.x, self.y - other.y)
    }
}

impl<T> Index<usize> for Vector2<T> {
    type Output = T;

    fn index(&self, axis: usize) -> &T {
        match axis {
            0 => &self.x,
            1 => &self.y,
            _ => panic!("a vector of two numbers has no number {axis}"),
        }
    }
}

impl<T: RoundTrip> RoundTrip for Vector2<T> {
    fn round_trip(&self) -> Self {
        Vector2::new(self.x.round_trip(), self.y.round_trip())
    }
}
