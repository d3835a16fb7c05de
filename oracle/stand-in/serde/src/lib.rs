//! Stands in for the crate `serde`. The configurator saves a `State` and loads it again, and an equal value comes back.
//! That round trip is all that is left of serde here: it copies a `State`, which is not `Clone`.

pub use serde_derive::{Deserialize, Serialize};

pub trait RoundTrip {
    /// What comes back when the value is saved and loaded.
    fn round_trip(&self) -> Self;
}

/// Types whose round trip is their clone.
#[macro_export]
macro_rules! round_trip_is_clone {
    ($($type:ty),*) => {
        $(impl $crate::RoundTrip for $type {
            fn round_trip(&self) -> Self {
                self.clone()
            }
        })*
    };
}

round_trip_is_clone!(i8, i32, String);

impl<T: RoundTrip> RoundTrip for Vec<T> {
    fn round_trip(&self) -> Self {
        self.iter().map(RoundTrip::round_trip).collect()
    }
}
