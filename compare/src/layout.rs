//! Where everything stands in the image. All access to the image goes
//! through this module.

/// "Cylinder 0 uses k = 0 (house)": a kind and 128 bytes.
pub const INDEX_BODY: usize = 128;
pub const INDEX_SECTOR: usize = INDEX_BODY + 1;

/// The most physical records a block takes: B is "at most D·P", D at most 26.
pub const MOST_IN_BLOCK: usize = 26;

/// The most label slots: S·I - 7 with S = 2 and I = 26.
pub const MOST_SLOTS: usize = 45;

/// The numbers of an accepted volume.
#[derive(Clone, Copy, Debug, PartialEq, Eq)]
pub struct Geometry {
    /// Data cylinders L.
    pub l: usize,
    /// Sectors of an index side I.
    pub i: usize,
    /// Sectors of a data side D.
    pub d: usize,
    /// P is 128·2^k.
    pub k: u8,
    /// Sides S.
    pub s: usize,
    /// First defective physical cylinder.
    pub d1: Option<usize>,
    /// Second defective physical cylinder.
    pub d2: Option<usize>,
}

/// What a sector's kind says.
#[derive(Clone, Copy, Debug, PartialEq, Eq)]
pub enum Mark {
    Valid,
    Incorrect,
    CheckFailed,
}

impl Geometry {
    /// "With k = 0 to 3 the body has 128·2^k bytes."
    pub fn p(&self) -> usize {
        128 << self.k
    }

    pub fn index_sectors(&self) -> usize {
        self.s * self.i
    }

    /// Sectors of both sides of one data cylinder.
    pub fn cylinder_sectors(&self) -> usize {
        self.s * self.d
    }

    /// "Length: S·I·129 + (L+3)·S·D·(P+1) bytes."
    pub fn image_length(&self) -> usize {
        self.index_sectors() * INDEX_SECTOR
            + (self.l + 3) * self.cylinder_sectors() * (self.p() + 1)
    }

    /// All sectors of the image, reserved cylinders included.
    pub fn sectors(&self) -> usize {
        self.index_sectors() + (self.l + 3) * self.cylinder_sectors()
    }

    /// Data addresses.
    pub fn data_records(&self) -> usize {
        self.l * self.cylinder_sectors()
    }

    /// "08 to I are label slots 1 to I-7. On two-sided volumes, side 1
    /// sectors 01 to I continue the slots."
    pub fn slots(&self) -> usize {
        self.index_sectors() - 7
    }

    /// Slot 1 is sector 08 of side 0, ordinal 7; both sides follow on.
    pub fn slot_ordinal(slot: usize) -> usize {
        slot + 6
    }

    /// Where the kind byte of a sector stands; its body starts right behind.
    pub fn kind_at(&self, ordinal: usize) -> usize {
        let index = self.index_sectors();
        if ordinal < index {
            ordinal * INDEX_SECTOR
        } else {
            index * INDEX_SECTOR + (ordinal - index) * (self.p() + 1)
        }
    }

    /// "For data cylinder c from 1 to L: q is c, or c+1 if d1 is present and
    /// d1 ≤ c; the physical cylinder is q, or q+1 if d2 is present and
    /// d2 ≤ q."
    pub fn physical_cylinder(&self, c: usize) -> usize {
        let q = match self.d1 {
            Some(d1) if d1 <= c => c + 1,
            _ => c,
        };
        match self.d2 {
            Some(d2) if d2 <= q => q + 1,
            _ => q,
        }
    }

    /// The ordinal of a data record, numbered from 0 in address order.
    pub fn record_ordinal(&self, record: usize) -> usize {
        let cylinder = record / self.cylinder_sectors() + 1;
        self.index_sectors()
            + (self.physical_cylinder(cylinder) - 1) * self.cylinder_sectors()
            + record % self.cylinder_sectors()
    }

    /// "Kind k: valid data mark. Kind 16+k: incorrect-data mark. Kind 32+k:
    /// check failed."
    pub fn first_illegal_kind(&self, image: &[u8]) -> Option<usize> {
        let index = self.index_sectors();
        let (front, data) = image.split_at(index * INDEX_SECTOR);
        let legal = |kind: u8, k: u8| kind == k || kind == 16 + k || kind == 32 + k;
        front
            .chunks_exact(INDEX_SECTOR)
            .position(|sector| !legal(sector[0], 0))
            .or_else(|| {
                data.chunks_exact(self.p() + 1)
                    .position(|sector| !legal(sector[0], self.k))
                    .map(|place| place + index)
            })
    }

    /// The 128 bytes of an index sector.
    pub fn index_body(image: &[u8], ordinal: usize) -> &[u8] {
        let at = ordinal * INDEX_SECTOR + 1;
        &image[at..at + INDEX_BODY]
    }

    /// The 128 bytes of an index sector, to be changed.
    pub fn index_body_mut(image: &mut [u8], ordinal: usize) -> &mut [u8] {
        let at = ordinal * INDEX_SECTOR + 1;
        &mut image[at..at + INDEX_BODY]
    }

    /// The kind of an index sector.
    pub fn index_kind(image: &[u8], ordinal: usize) -> u8 {
        image[ordinal * INDEX_SECTOR]
    }

    /// Gives an index sector another kind.
    pub fn set_index_kind(image: &mut [u8], ordinal: usize, kind: u8) {
        image[ordinal * INDEX_SECTOR] = kind;
    }

    /// The walk over data records `first` to `last`, both included.
    pub fn walk(&self, first: usize, last: usize) -> Walk {
        Walk {
            geometry: *self,
            record: first,
            stop: last + 1,
            at: 0,
            left: 0,
        }
    }
}

/// The mark of a kind that was found legal.
pub fn mark(kind: u8) -> Mark {
    match kind >> 4 {
        0 => Mark::Valid,
        1 => Mark::Incorrect,
        _ => Mark::CheckFailed,
    }
}

/// Data records in address order with the place of each one's kind byte.
/// The place is worked out anew only where a cylinder begins.
#[derive(Clone, Copy, Debug)]
pub struct Walk {
    geometry: Geometry,
    record: usize,
    stop: usize,
    at: usize,
    left: usize,
}

impl Iterator for Walk {
    type Item = (usize, usize);

    fn next(&mut self) -> Option<(usize, usize)> {
        if self.record >= self.stop {
            return None;
        }
        if self.left == 0 {
            let geometry = &self.geometry;
            self.at = geometry.kind_at(geometry.record_ordinal(self.record));
            self.left = geometry.cylinder_sectors() - self.record % geometry.cylinder_sectors();
        }
        let found = (self.record, self.at);
        self.record += 1;
        self.left -= 1;
        self.at += self.geometry.p() + 1;
        Some(found)
    }
}
