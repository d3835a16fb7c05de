//! The proved calls. The library keeps nothing between calls: each builds the drawing by its edits and then makes one call
//! so many times on it, so the time of one is what more of them take.

use crate::clock::timed;
use crate::script::Numbered;
use batches::{all_made, time_of_one};

extern "C" {
    #[allow(clippy::too_many_arguments)]
    fn wuyansole_time(
        whats: *const u8,
        whats_length: usize,
        numbers: *const i32,
        numbers_length: usize,
        count: u32,
        call: u8,
        what: u8,
        x: i32,
        y: i32,
        z: i32,
        times: u32,
    ) -> u32;
}

/// The number of a timed call in `crates/bench_calls/specs/Timed.antt`, `Tables.antt` and `Files.antt`.
#[derive(Debug, Clone, Copy, PartialEq, Eq)]
#[repr(u8)]
pub enum Call {
    EditOn = 0,
    Edit = 1,
    CheckPlainly = 2,
    Check = 3,
    ListOn = 4,
    List = 5,
    LooseOn = 6,
    Loose = 7,
    Split = 8,
    KeepWires = 9,
    KeepComponents = 10,
    Lay = 11,
    Insert = 12,
    Merge = 13,
    CountJoints = 14,
    Pads = 15,
    NetNumbers = 16,
    Save = 17,
    SaveOn = 18,
    SaveAndOpen = 19,
}

impl Call {
    pub const LOOKS: [Self; 9] = [
        Self::CheckPlainly,
        Self::Check,
        Self::ListOn,
        Self::List,
        Self::LooseOn,
        Self::Loose,
        Self::Save,
        Self::SaveOn,
        Self::SaveAndOpen,
    ];
    pub const TABLES: [Self; 9] = [
        Self::Split,
        Self::KeepWires,
        Self::KeepComponents,
        Self::Lay,
        Self::Insert,
        Self::Merge,
        Self::CountJoints,
        Self::Pads,
        Self::NetNumbers,
    ];
}

/// The drawing of a script, on which calls are timed.
pub struct Ours {
    whats: Vec<u8>,
    numbers: Vec<i32>,
    /// Nanoseconds to build the drawing alone.
    building: f64,
}

/// How often building the drawing is timed; the least counts.
const BUILDINGS: usize = 10;

impl Ours {
    pub fn new(script: &[Numbered]) -> Self {
        let whats = script.iter().map(|edit| edit.what).collect();
        let numbers = script.iter().flat_map(|edit| edit.numbers).collect();
        let mut ours = Ours { whats, numbers, building: 0.0 };
        ours.building =
            (0..BUILDINGS).map(|_| ours.run(Call::Loose, Numbered::NONE, 0).0).fold(f64::INFINITY, f64::min);
        ours
    }

    /// The nanoseconds of building and of so many calls, and the last answer.
    fn run(&self, call: Call, edit: Numbered, times: u32) -> (f64, u32) {
        let [x, y, z] = edit.numbers;
        let count = self.whats.len() as u32;
        timed(|| unsafe {
            // Slices go as a pointer and a length.
            wuyansole_time(
                self.whats.as_ptr(),
                self.whats.len(),
                self.numbers.as_ptr(),
                self.numbers.len(),
                count,
                call as u8,
                edit.what,
                x,
                y,
                z,
                times,
            )
        })
    }

    /// The answer of one call.
    pub fn answer(&self, call: Call, edit: Numbered) -> u32 {
        self.run(call, edit, 1).1
    }

    /// How many nanoseconds a batch of calls lasts at least, ours and the Rust's: twice as long as the drawing takes to
    /// build, which is taken off ours, and 10 ms.
    pub fn enough(&self) -> f64 {
        (2.0 * self.building).max(1e7)
    }

    /// Nanoseconds of so many calls.
    fn taken(&self, call: Call, edit: Numbered, times: u32) -> f64 {
        self.run(call, edit, times).0 - self.building
    }

    /// Nanoseconds of one call.
    pub fn time(&self, call: Call, edit: Numbered) -> f64 {
        time_of_one(self.enough(), |times| self.taken(call, edit, times))
    }

    pub fn assert_all_made(&self, call: Call, edit: Numbered) {
        let say = |what| eprintln!("{call:?}: {what}");
        assert!(
            all_made(self.enough(), |times| self.taken(call, edit, times), say),
            "{call:?}: some of the calls are left out"
        );
    }
}
