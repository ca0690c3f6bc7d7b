//! One call with all it lends, and its whole answer.

use crate::reading::Place;
use crate::{creating, file, listing, packed, reading, volume, writing};

#[derive(Clone, Debug, PartialEq, Eq)]
pub enum Call {
    Judge,
    Find {
        name: Vec<u8>,
    },
    Count {
        slot: u64,
    },
    Free,
    Read {
        slot: u64,
        block: u64,
        offset: u64,
        mark: u64,
        out: Vec<u8>,
    },
    Salvage {
        slot: u64,
        block: u64,
        offset: u64,
        mark: u64,
        out: Vec<u8>,
    },
    Write {
        slot: u64,
        bodies: Vec<u8>,
        lengths: Vec<u32>,
    },
    Create {
        fields: Vec<u8>,
        n: u64,
    },
    Delete {
        slot: u64,
    },
    /// The physical cylinder of a data cylinder, by the number that the
    /// judgement returns.
    Physical {
        cylinder: u64,
    },
    Listing,
}

impl Call {
    /// The call's name.
    pub fn name(&self) -> &'static str {
        match self {
            Call::Judge => "judge",
            Call::Find { .. } => "find",
            Call::Count { .. } => "count",
            Call::Free => "free",
            Call::Read { .. } => "read",
            Call::Salvage { .. } => "salvage",
            Call::Write { .. } => "write",
            Call::Create { .. } => "create",
            Call::Delete { .. } => "delete",
            Call::Physical { .. } => "physical",
            Call::Listing => "listing",
        }
    }
}

/// The packed number and every lent byte afterwards.
#[derive(Clone, Debug, PartialEq, Eq)]
pub struct Answer {
    /// 0 for the listing.
    pub packed: u64,
    pub image: Vec<u8>,
    /// The output after the call; for the listing its text.
    pub out: Vec<u8>,
}

/// Plain reading or salvage: the output is lent anew and kept for the answer.
fn reading(
    image: &[u8],
    slot: u64,
    (block, offset, mark): (u64, u64, u64),
    output: &mut [u8],
    salvaging: bool,
) -> u64 {
    // "a mark is set if it is not 0"
    let place = Place {
        block,
        offset,
        mark: mark != 0,
    };
    packed::reading(&if salvaging {
        reading::salvage(image, slot, place, output)
    } else {
        reading::read(image, slot, place, output)
    })
}

/// The answer to a call. The lent bytes of the call itself stay.
pub fn answer(image: &[u8], call: &Call) -> Answer {
    let mut after = image.to_vec();
    let mut output = match call {
        Call::Read { out, .. } | Call::Salvage { out, .. } => out.clone(),
        Call::Listing => listing::listing(image),
        _ => Vec::new(),
    };
    let packed = match call {
        Call::Judge => packed::judged(&volume::judge(image)),
        Call::Find { name } => packed::found(&file::find(image, name)),
        Call::Count { slot } => packed::number(&file::count(image, *slot)),
        Call::Free => packed::number(&file::free(image)),
        #[rustfmt::skip]
        Call::Read { slot, block, offset, mark, .. } => {
            reading(image, *slot, (*block, *offset, *mark), &mut output, false)
        },
        #[rustfmt::skip]
        Call::Salvage { slot, block, offset, mark, .. } => {
            reading(image, *slot, (*block, *offset, *mark), &mut output, true)
        },
        #[rustfmt::skip]
        Call::Write { slot, bodies, lengths } => {
            packed::number(&writing::write(&mut after, *slot, bodies, lengths))
        },
        Call::Create { fields, n } => packed::placed(&creating::create(&mut after, fields, *n)),
        Call::Delete { slot } => packed::number(&creating::delete(&mut after, *slot)),
        Call::Physical { cylinder } => {
            packed::physical(packed::judged(&volume::judge(image)), *cylinder)
        }
        Call::Listing => 0,
    };
    Answer {
        packed,
        image: after,
        out: output,
    }
}
