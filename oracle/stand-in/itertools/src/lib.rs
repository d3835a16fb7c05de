//! Stands in for the crate `itertools`: the three methods that `schematic.rs` calls, collected at once.

pub trait Itertools: Iterator {
    fn sorted(self) -> std::vec::IntoIter<Self::Item>
    where
        Self: Sized,
        Self::Item: Ord,
    {
        let mut items: Vec<_> = self.collect();
        items.sort();
        items.into_iter()
    }

    /// Of equal items that follow each other only the first.
    fn dedup(self) -> std::vec::IntoIter<Self::Item>
    where
        Self: Sized,
        Self::Item: PartialEq,
    {
        let mut items: Vec<_> = self.collect();
        items.dedup();
        items.into_iter()
    }

    /// Each item with the next one. The crate has windows of any length; here they are pairs.
    fn tuple_windows(self) -> std::vec::IntoIter<(Self::Item, Self::Item)>
    where
        Self: Sized,
        Self::Item: Clone,
    {
        let items: Vec<_> = self.collect();
        let pairs: Vec<_> = items.windows(2).map(|pair| (pair[0].clone(), pair[1].clone())).collect();
        pairs.into_iter()
    }
}

impl<I: Iterator> Itertools for I {}
