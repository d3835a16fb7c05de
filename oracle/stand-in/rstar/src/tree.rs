use crate::order::{order, Order};
use crate::primitives::GeomWithData;
use crate::{RTreeObject, AABB};
use serde::RoundTrip;

type Aabb = AABB<[i32; 2]>;

/// The items stand in the order in which the tree tells them.
#[derive(Clone)]
pub struct RTree<T> {
    items: Vec<T>,
    order: Order,
}

impl<T> Default for RTree<T> {
    fn default() -> Self {
        RTree { items: Vec::new(), order: order() }
    }
}

impl<T: Clone> RoundTrip for RTree<T> {
    fn round_trip(&self) -> Self {
        self.clone()
    }
}

impl<T: RTreeObject<Envelope = Aabb>> RTree<T> {
    pub fn insert(&mut self, item: T) {
        let place = self.place_of(&item);
        self.items.insert(place, item);
    }

    fn place_of(&mut self, item: &T) -> usize {
        match &mut self.order {
            Order::Insertion => self.items.len(),
            Order::Reverse => 0,
            Order::Shuffled(random) => random.below(self.items.len() + 1),
            Order::Middle => {
                let key = middle(&item.envelope());
                self.items.partition_point(|other| middle(&other.envelope()) <= key)
            }
        }
    }

    pub fn remove(&mut self, item: &T) -> Option<T>
    where
        T: PartialEq,
    {
        let place = self.items.iter().position(|other| other == item)?;
        Some(self.items.remove(place))
    }

    pub fn iter(&self) -> std::slice::Iter<'_, T> {
        self.items.iter()
    }

    pub fn locate_in_envelope_intersecting<'a>(&'a self, envelope: &Aabb) -> impl Iterator<Item = &'a T> + 'a {
        let envelope = *envelope;
        self.items.iter().filter(move |item| item.envelope().intersects(&envelope))
    }

    pub fn locate_in_envelope_intersecting_mut<'a>(
        &'a mut self,
        envelope: &Aabb,
    ) -> impl Iterator<Item = &'a mut T> + 'a {
        let envelope = *envelope;
        self.items.iter_mut().filter(move |item| item.envelope().intersects(&envelope))
    }
}

impl<D> RTree<GeomWithData<[i32; 2], D>> {
    pub fn locate_at_point_mut(&mut self, p: &[i32; 2]) -> Option<&mut GeomWithData<[i32; 2], D>> {
        self.items.iter_mut().find(|item| item.geom() == p)
    }

    pub fn remove_at_point(&mut self, p: &[i32; 2]) -> Option<GeomWithData<[i32; 2], D>> {
        let place = self.items.iter().position(|item| item.geom() == p)?;
        Some(self.items.remove(place))
    }
}

/// Twice the middle of a box, y before x.
fn middle(envelope: &Aabb) -> (i32, i32) {
    let (low, high) = (envelope.lower(), envelope.upper());
    (low[1] + high[1], low[0] + high[0])
}
