//! The case maker's own packing of records into blocks, with its own account
//! of which block each record begins and ends in.

use super::rng::Rng;

/// What the packing needs to know of a file.
#[derive(Clone, Copy, Debug)]
pub struct Shape {
    /// `F`, `V` or `S`.
    pub format: u8,
    pub blocked: bool,
    pub b: usize,
    /// 0 is S without a maximum.
    pub r: usize,
    /// Whole blocks the extent holds.
    pub capacity: usize,
}

/// One record with the blocks it begins and ends in.
#[derive(Clone, Debug, PartialEq, Eq)]
pub struct Kept {
    pub body: Vec<u8>,
    pub first: usize,
    pub last: usize,
}

/// Records in blocks. A block's bytes end with the last one used.
#[derive(Clone, Debug, Default)]
pub struct Packed {
    pub blocks: Vec<Vec<u8>>,
    pub records: Vec<Kept>,
}

impl Packed {
    fn left(&self, shape: &Shape) -> usize {
        self.blocks.last().map_or(0, |block| shape.b - block.len())
    }

    fn put(&mut self, bytes: &[u8]) {
        if let Some(block) = self.blocks.last_mut() {
            block.extend_from_slice(bytes);
        }
    }

    fn open(&mut self) {
        self.blocks.push(Vec::new());
    }

    fn current(&self) -> usize {
        self.blocks.len() - 1
    }

    /// Adds a record; `loose` packs with gaps of fill that are legal but not
    /// what a writer makes. False if the capacity was exceeded.
    fn add(&mut self, shape: &Shape, body: Vec<u8>, loose: Option<&mut Rng>) -> bool {
        let blocks = self.blocks.len();
        let used = self.blocks.last().map_or(0, Vec::len);
        let (first, last) = match shape.format {
            b'V' => self.add_variable(shape, &body, loose),
            b'S' => self.add_spanned(shape, &body, loose),
            _ => self.add_fixed(shape, &body),
        };
        if self.blocks.len() > shape.capacity {
            self.blocks.truncate(blocks);
            if let Some(block) = self.blocks.last_mut() {
                block.truncate(used);
            }
            return false;
        }
        self.records.push(Kept { body, first, last });
        true
    }

    fn add_fixed(&mut self, shape: &Shape, body: &[u8]) -> (usize, usize) {
        if self.left(shape) < shape.r {
            self.open();
        }
        self.put(body);
        (self.current(), self.current())
    }

    fn add_variable(
        &mut self,
        shape: &Shape,
        body: &[u8],
        loose: Option<&mut Rng>,
    ) -> (usize, usize) {
        if let Some(rng) = loose {
            self.open_early(rng);
        }
        if !shape.blocked || self.left(shape) < body.len() + 4 {
            self.open();
        }
        self.put(format!("{:04}", body.len() + 4).as_bytes());
        self.put(body);
        (self.current(), self.current())
    }

    /// Now and then one or two new blocks though room is left; a block left
    /// empty is a block of fill.
    fn open_early(&mut self, rng: &mut Rng) {
        for _ in 0..rng.pick(&[0, 0, 0, 1, 2]) {
            self.open();
        }
    }

    fn add_spanned(
        &mut self,
        shape: &Shape,
        body: &[u8],
        mut loose: Option<&mut Rng>,
    ) -> (usize, usize) {
        if let Some(rng) = loose.as_deref_mut() {
            self.open_early(rng);
        }
        if self.left(shape) < 5 + usize::from(!body.is_empty()) {
            self.open();
        }
        let first = self.current();
        let mut done = 0;
        loop {
            let most = (body.len() - done).min(self.left(shape) - 5);
            let take = loose
                .as_deref_mut()
                .map_or(most, |rng| draw_part(rng, most));
            let indicator = match (done == 0 && self.current() == first, done + take) {
                (true, sum) if sum == body.len() => '0',
                (true, _) => '1',
                (false, sum) if sum == body.len() => '3',
                (false, _) => '2',
            };
            self.put(format!("{indicator}{:04}", take + 5).as_bytes());
            self.put(&body[done..done + take]);
            done += take;
            if done == body.len() || self.blocks.len() > shape.capacity {
                return (first, self.current());
            }
            self.open();
            if let Some(rng) = loose.as_deref_mut() {
                self.open_early(rng);
            }
        }
    }
}

/// Mostly all that fits, now and then less.
fn draw_part(rng: &mut Rng, most: usize) -> usize {
    if rng.chance(40) {
        rng.between(0, most)
    } else {
        most
    }
}

/// Packs bodies as a writer would, as many as fit.
pub fn pack(shape: &Shape, bodies: &[Vec<u8>]) -> Packed {
    let mut packed = Packed::default();
    for body in bodies {
        if !packed.add(shape, body.clone(), None) {
            break;
        }
    }
    packed
}

/// Packs bodies with legal gaps of fill, as many as fit.
pub fn pack_loosely(rng: &mut Rng, shape: &Shape, bodies: &[Vec<u8>]) -> Packed {
    let mut packed = Packed::default();
    for body in bodies {
        if !packed.add(shape, body.clone(), Some(rng)) {
            break;
        }
    }
    packed
}

/// A body of a length that the file takes.
pub fn body(rng: &mut Rng, shape: &Shape) -> Vec<u8> {
    let length = match shape.format {
        b'V' => rng.between(0, shape.r - 4),
        b'S' if shape.b == 5 => 0,
        b'S' => {
            let most = if shape.r == 0 { 3 * shape.b } else { shape.r };
            let usual = most.min(3 * shape.b);
            match rng.below(8) {
                0 => 0,
                1 => usual,
                2 => (shape.b - 5).min(usual),
                3 => rng.between(0, usual),
                _ => rng.between(0, usual.min(shape.b)),
            }
        }
        _ => shape.r,
    };
    rng.telling_bytes(length)
}
