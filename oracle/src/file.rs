//! A saved drawing (document 02, P5), from the document's words alone: the file of a drawing, and what reading a file gives.

mod frames;
mod lawful;
mod number;
mod opened;
mod reader;
mod saved;
mod writer;

pub use frames::{frames, put_frame};
pub use lawful::lawful;
pub use number::put_number;
pub use opened::{opened, shown};
pub use reader::{read, read_rows};
pub use saved::{saved, Saved};
pub use writer::write;

/// The file ends with a byte still due.
pub const ENDS_EARLY: u32 = 12;
/// A number not in its fewest groups or above 32 bits, or a drawing that isn't lawful.
pub const NOT_LAWFUL: u32 = 13;
/// Bytes behind the end.
pub const BYTES_BEHIND: u32 = 14;

/// Coordinates are stored plus this.
pub const STORED_PLUS: i32 = 6000;
