//! docs/01-scope.md read once more, in plain Rust and for no speed. It shares no code with the library
//! or with geometry-rs. It answers where the Rust does not: refusals, what is left in lent room,
//! damaged indexes, whole numbers that the Rust's products do not hold.

pub mod outline;
pub mod ring;
pub mod stripes;
pub mod tree;
pub mod varint;
pub mod wkb;

/// A refusal's number and place.
pub type No = (u32, u64);

/// What an inside question says.
pub type Answer = Result<bool, No>;

/// What a listing or building call says.
pub type Count = Result<u64, No>;

pub const NO_ROOM: No = (8, 0);

pub fn damaged(place: usize) -> No {
    (9, place as u64)
}

/// Refusals 1 to 7 touch no lent room; 8, 9 and 15 fill it with zeros.
pub fn leaves_zeros(no: No) -> bool {
    matches!(no.0, 8 | 9 | 15)
}

/// Puts what a call found into the room that it was lent, with zeros behind it.
pub fn pour<T: Copy + Default>(found: Result<Vec<T>, No>, room: &mut [T]) -> Count {
    let found = found.and_then(|f| if f.len() > room.len() { Err(NO_ROOM) } else { Ok(f) });
    if found.as_ref().map_or_else(|&no| leaves_zeros(no), |_| true) {
        room.fill(T::default());
    }
    found.map(|f| {
        room[..f.len()].copy_from_slice(&f);
        f.len() as u64
    })
}

/// What reading an index finds, in working order, and the damage that ends it, if any.
#[derive(Clone, Debug, Default, PartialEq, Eq)]
pub struct Found {
    pub list: Vec<usize>,
    pub damage: Option<No>,
}

impl Found {
    /// A list call that is lent so much room: 8, 9 and 15 are met in working order, and all that was found
    /// stands before the damage.
    pub fn listed(self, room: &mut [u32]) -> Count {
        let no = if self.list.len() > room.len() { Some(NO_ROOM) } else { self.damage };
        pour(no.map_or(Ok(self.list.into_iter().map(|i| i as u32).collect()), Err), room)
    }

    /// The list where it is complete.
    pub fn complete(self) -> Result<Vec<usize>, No> {
        self.damage.map_or(Ok(self.list), Err)
    }
}
