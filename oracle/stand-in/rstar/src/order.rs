//! In which order a tree tells its items. A result that hangs on it shows as a difference between two orders.

use random::Random;
use std::cell::Cell;

#[derive(Debug, Clone, Copy, PartialEq, Eq)]
pub enum Order {
    /// The oldest item first.
    Insertion,
    /// The newest item first.
    Reverse,
    /// Each item at a place drawn by lot.
    Shuffled(Random),
    /// By rising (y, x) of the middle of each item's box. A contact's position is the middle of its box, so this is the
    /// order in which document 01 lays turned contacts.
    Middle,
}

thread_local! {
    static ORDER: Cell<Order> = const { Cell::new(Order::Insertion) };
}

/// The order of the trees that this thread makes from now on.
pub fn set_order(order: Order) {
    ORDER.set(order);
}

pub(crate) fn order() -> Order {
    ORDER.get()
}
