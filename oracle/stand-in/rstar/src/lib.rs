//! Stands in for the crate `rstar`: a tree is a plain list that answers each question by looking at every item.
//! What a question finds is the same as with rstar; in which order, rstar leaves to its tree, and here `Order` tells.

mod order;
mod tree;

pub use order::{set_order, Order};
pub use tree::RTree;

/// A box with its edges, held by its low and its high corner.
#[derive(Debug, Clone, Copy, PartialEq, Eq)]
pub struct AABB<P> {
    lower: P,
    upper: P,
}

impl AABB<[i32; 2]> {
    pub fn from_corners(p: [i32; 2], q: [i32; 2]) -> Self {
        AABB { lower: [p[0].min(q[0]), p[1].min(q[1])], upper: [p[0].max(q[0]), p[1].max(q[1])] }
    }

    pub fn from_point(p: [i32; 2]) -> Self {
        AABB { lower: p, upper: p }
    }

    pub fn lower(&self) -> [i32; 2] {
        self.lower
    }

    pub fn upper(&self) -> [i32; 2] {
        self.upper
    }

    /// Whether the two boxes share a point, edges counted.
    pub fn intersects(&self, other: &Self) -> bool {
        (0..2).all(|axis| self.lower[axis] <= other.upper[axis] && other.lower[axis] <= self.upper[axis])
    }
}

pub trait RTreeObject {
    type Envelope;

    fn envelope(&self) -> Self::Envelope;
}

pub mod primitives {
    use super::{RTreeObject, AABB};

    #[derive(Debug, Clone, Copy, PartialEq, Eq)]
    pub struct Line<P> {
        pub from: P,
        pub to: P,
    }

    impl<P> Line<P> {
        pub fn new(from: P, to: P) -> Self {
            Line { from, to }
        }
    }

    impl RTreeObject for Line<[i32; 2]> {
        type Envelope = AABB<[i32; 2]>;

        fn envelope(&self) -> Self::Envelope {
            AABB::from_corners(self.from, self.to)
        }
    }

    #[derive(Debug, Clone, Copy, PartialEq, Eq)]
    pub struct GeomWithData<P, D> {
        geom: P,
        pub data: D,
    }

    impl<P, D> GeomWithData<P, D> {
        pub fn new(geom: P, data: D) -> Self {
            GeomWithData { geom, data }
        }

        pub fn geom(&self) -> &P {
            &self.geom
        }
    }

    impl<D> RTreeObject for GeomWithData<[i32; 2], D> {
        type Envelope = AABB<[i32; 2]>;

        fn envelope(&self) -> Self::Envelope {
            AABB::from_point(self.geom)
        }
    }
}

serde::round_trip_is_clone!(AABB<[i32; 2]>);
