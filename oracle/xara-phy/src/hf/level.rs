// Stub for the source's levels and bandwidths: a record here carries a field size.

/// Added to a field size in a record, so that field 15 is not taken for `cq::RECORD`, whose payload is 6.
const FIELDS_FROM: usize = 1000;

#[derive(Clone, Copy, Debug, PartialEq, Eq)]
pub struct Record(usize);

impl Record {
    pub const ONE: Self = Self(1);

    /// A record by the source's number, for its constants; no level is behind it here.
    pub const fn new(n: usize) -> Option<Self> {
        Some(Self(n))
    }

    /// The record that stands for a field size: payload field, frame field + 3.
    pub const fn of_field(field: usize) -> Self {
        Self(FIELDS_FROM + field)
    }

    pub const fn get(self) -> usize {
        self.0
    }
}

/// What the packet coding asks of a level.
#[derive(Clone, Copy, Debug, PartialEq, Eq)]
pub struct Level {
    field: u32,
}

impl Level {
    pub const fn payload(&self) -> u32 {
        self.field
    }

    pub const fn frame_bytes(&self) -> u32 {
        self.field + 3
    }
}

#[derive(Clone, Copy, Debug, PartialEq, Eq)]
pub enum Bandwidth {
    Hz500,
    Hz2300,
    Hz2750,
}

impl Bandwidth {
    pub const ALL: [Bandwidth; 3] = [Bandwidth::Hz500, Bandwidth::Hz2300, Bandwidth::Hz2750];

    pub const fn hz(self) -> u32 {
        match self {
            Bandwidth::Hz500 => 500,
            Bandwidth::Hz2300 => 2300,
            Bandwidth::Hz2750 => 2750,
        }
    }

    /// The level of a record that carries a field size; the source's own levels are not here.
    pub fn level(self, record: Record) -> Level {
        let field = record.0.checked_sub(FIELDS_FROM).expect("the record carries no field size");
        Level { field: field as u32 }
    }
}
