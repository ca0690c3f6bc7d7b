//! Plain reading and salvage from a place (refusals 19 to 23).

use crate::file::{Block, File, Good};
use crate::label::Format;
use crate::refusal::Refusal;
use std::cell::Cell;

/// "A place is a block number and an offset, with a mark 'after a gap'."
#[derive(Clone, Copy, Debug, PartialEq, Eq)]
pub struct Place {
    pub block: u64,
    pub offset: u64,
    pub mark: bool,
}

impl Place {
    /// "Start is (0, 0)."
    pub const START: Place = Place::unmarked(0, 0);

    pub const fn unmarked(block: u64, offset: u64) -> Place {
        Place {
            block,
            offset,
            mark: false,
        }
    }

    /// "one gap and the next block's start, marked"
    pub const fn behind_gap(lost: u64) -> Place {
        Place {
            block: lost + 1,
            offset: 0,
            mark: true,
        }
    }
}

/// "Salvage answers record, gap, End or refusal."
#[derive(Clone, Copy, Debug, PartialEq, Eq)]
pub enum Reading {
    Record { length: u64, next: Place },
    Gap { next: Place },
    End { next: Place },
}

/// What a reading meets on its way beside its answer, and why content is
/// refused, so that a comparison can count what its cases reach.
#[derive(Clone, Copy, Debug, PartialEq, Eq)]
pub enum Event {
    FillPassed,
    MarkKept,
    SecondDropped,
    ThirdDropped,
    GapMidway,
    FewLeft,
    FillBroken,
    BehindUnblocked,
    BehindSegment,
    NoIndicator,
    NoDigits,
    LengthBelow,
    LengthOutside,
    OverMaximum,
    NotFirst,
    NotNext,
}

impl Event {
    pub const ALL: [(Event, &'static str); 16] = [
        (Event::FillPassed, "a rest of fill passed"),
        (Event::MarkKept, "a mark kept by a block of fill"),
        (Event::SecondDropped, "a 2 dropped"),
        (Event::ThirdDropped, "a 3 dropped"),
        (Event::GapMidway, "a gap midway in a record"),
        (Event::FewLeft, "21: a few bytes left, not fill"),
        (Event::FillBroken, "21: a 00, then not fill"),
        (Event::BehindUnblocked, "21: behind an unblocked record"),
        (Event::BehindSegment, "21: behind a 1 or 2"),
        (Event::NoIndicator, "21: no indicator"),
        (Event::NoDigits, "21: no digits"),
        (Event::LengthBelow, "21: a length too small"),
        (Event::LengthOutside, "21: outside the content"),
        (Event::OverMaximum, "21: over R"),
        (Event::NotFirst, "21: a 2 or 3 first"),
        (Event::NotNext, "21: a 0 or 1 after a 1 or 2"),
    ];
}

/// Events that were met, a bit each.
#[derive(Debug, Default)]
pub struct Events(Cell<u32>);

impl Events {
    fn note(&self, event: Event) {
        self.0.set(self.0.get() | 1 << event as u32);
    }

    pub fn has(&self, event: Event) -> bool {
        self.0.get() >> event as u32 & 1 == 1
    }
}

/// Plain reading of the record at a place.
pub fn read(image: &[u8], slot: u64, place: Place, out: &mut [u8]) -> Result<Reading, Refusal> {
    // "In plain reading ... the mark counts as absent."
    watched(image, slot, place, out, false, &Events::default())
}

/// Salvage from a place.
pub fn salvage(image: &[u8], slot: u64, place: Place, out: &mut [u8]) -> Result<Reading, Refusal> {
    watched(image, slot, place, out, true, &Events::default())
}

/// Every place that reading leads to, from Start to the one where it ends.
pub fn places(image: &[u8], slot: u64, salvaging: bool) -> Vec<Place> {
    let mut out = vec![0; image.len()];
    let mut places = vec![Place::START];
    loop {
        let place = places[places.len() - 1];
        let events = Events::default();
        match watched(image, slot, place, &mut out, salvaging, &events) {
            Ok(Reading::Record { next, .. } | Reading::Gap { next }) => places.push(next),
            _ => return places,
        }
    }
}

/// How many answers the file gives from Start on, before End or a refusal,
/// and how many bytes of records.
pub fn given(image: &[u8], slot: u64, salvaging: bool) -> (u64, u64) {
    let mut out = vec![0; image.len()];
    let (mut place, mut answers, mut bytes) = (Place::START, 0, 0);
    loop {
        let events = Events::default();
        match watched(image, slot, place, &mut out, salvaging, &events) {
            Ok(Reading::Record { length, next }) => (place, bytes) = (next, bytes + length),
            Ok(Reading::Gap { next }) => place = next,
            _ => return (answers, bytes),
        }
        answers += 1;
    }
}

/// Reading or salvage, with what it met noted.
/// "Reading: 13-19, then 20-22 as blocks are met, 23 last."
pub fn watched(
    image: &[u8],
    slot: u64,
    place: Place,
    out: &mut [u8],
    salvage: bool,
    events: &Events,
) -> Result<Reading, Refusal> {
    let file = File::open(image, slot)?;
    file.accessible()?;
    let survey = file.survey(image, place.block.saturating_mul(file.m as u64))?;
    let count = file.blocks(&survey)?;
    let reader = Reader {
        image,
        file: &file,
        count,
        salvage,
        events,
    };
    reader.at(place, survey.at, out)
}

/// A file that is opened once and asked for many places.
pub struct Opened<'a> {
    image: &'a [u8],
    file: File,
    count: usize,
    /// Whether every record of the extent is good.
    whole: bool,
}

impl<'a> Opened<'a> {
    /// "A file call stops at the first refusal of the volume."
    /// "Reading: 13-19", of which 19 is a place's.
    pub fn open(image: &'a [u8], slot: u64) -> Result<Opened<'a>, Refusal> {
        let file = File::open(image, slot)?;
        file.accessible()?;
        let survey = file.survey(image, 0)?;
        Ok(Opened {
            image,
            file,
            count: file.blocks(&survey)?,
            whole: survey.good == file.entry.end - file.entry.start + 1,
        })
    }

    /// The data record that is the first of a block, if there is one.
    fn first_of(&self, block: usize) -> Option<usize> {
        let before = block * self.file.m;
        let entry = &self.file.entry;
        if self.whole {
            let record = entry.start + before;
            return (record <= entry.end).then_some(record);
        }
        let mut good = self.file.good_from(entry.start);
        for _ in 0..before {
            good.next(self.image)?;
        }
        good.next(self.image).map(|(record, _)| record)
    }

    /// Plain reading, or salvage, of a place.
    pub fn at(&self, place: Place, salvage: bool, out: &mut [u8]) -> Result<Reading, Refusal> {
        let reader = Reader {
            image: self.image,
            file: &self.file,
            count: self.count,
            salvage,
            events: &Events::default(),
        };
        let first = match usize::try_from(place.block) {
            Ok(block) if block < self.count => self.first_of(block),
            _ => None,
        };
        reader.at(place, first, out)
    }

    /// How many answers come before End or a refusal, `most` at most, from
    /// Start, each at the place that the one before led to.
    pub fn answers(&self, salvage: bool, out: &mut [u8], most: u64) -> u64 {
        let mut place = Place::START;
        for given in 0..most {
            match self.at(place, salvage, out) {
                Ok(Reading::Record { next, .. } | Reading::Gap { next }) => place = next,
                _ => return given,
            }
        }
        most
    }
}

/// "Any place in the file may be asked; F offsets are multiples of R; offset
/// at most the content; block = count only with offset 0"
fn place_in_file(file: &File, count: usize, place: Place) -> bool {
    if place.block >= count as u64 {
        return place.block == count as u64 && place.offset == 0;
    }
    let content = file.content(place.block as usize, count) as u64;
    place.offset <= content && (!file.fixed() || place.offset.is_multiple_of(file.entry.r as u64))
}

/// A point of the walk over blocks.
#[derive(Clone, Copy)]
struct Spot {
    number: usize,
    offset: usize,
    /// False until the block of that number was met.
    met: bool,
    content: usize,
    block: Block,
    behind: Good,
}

impl Spot {
    fn before(file: &File, number: usize, offset: usize, record: usize) -> Spot {
        Spot {
            number,
            offset,
            met: false,
            content: 0,
            block: Block::none(file),
            behind: file.good_from(record),
        }
    }

    /// The start of the next block, not yet met.
    fn enter_next(&mut self) {
        self.number += 1;
        self.offset = 0;
        self.met = false;
    }

    fn left(&self) -> usize {
        self.content - self.offset
    }
}

/// What stands where a block is looked for.
enum Met {
    Whole,
    Lost,
    PastLast,
}

/// What a control word says.
struct Segment {
    indicator: u8,
    length: usize,
}

struct Reader<'a> {
    image: &'a [u8],
    file: &'a File,
    count: usize,
    salvage: bool,
    events: &'a Events,
}

/// What may stand first where a segment is looked for.
#[derive(Clone, Copy, PartialEq, Eq)]
enum Expect {
    /// "otherwise it must be 0 or 1"
    Fresh,
    /// "There, in S, 0 to 3 may come first"
    Marked,
    /// "After 1 or 2 ... the next segment must be 2 or 3"
    Midway,
}

/// A record being joined from its segments.
struct Joining {
    expect: Expect,
    /// Where the record begins.
    first: Spot,
    /// Bytes of its bodies so far.
    length: usize,
}

impl Reader<'_> {
    /// The answer at a place whose block begins with that data record.
    fn at(&self, place: Place, first: Option<usize>, out: &mut [u8]) -> Result<Reading, Refusal> {
        let file = self.file;
        if !place_in_file(file, self.count, place) {
            return Err(Refusal::bare(19));
        }
        let first = first.unwrap_or(file.entry.end + 1);
        let spot = Spot::before(file, place.block as usize, place.offset as usize, first);
        match file.entry.format {
            Format::Fixed => self.fixed(spot, out),
            Format::Variable => self.variable(spot, out),
            Format::Spanned => self.spanned(spot, place.mark, out),
        }
    }

    /// "20 | plain reading meets a lost block | block"
    fn meet(&self, spot: &mut Spot) -> Result<Met, Refusal> {
        if spot.number == self.count {
            return Ok(Met::PastLast);
        }
        if spot.met {
            return Ok(Met::Whole);
        }
        spot.block.take(&mut spot.behind, self.image);
        if spot.block.lost && !self.salvage {
            return Err(Refusal::at(20, spot.number));
        }
        if spot.block.lost {
            return Ok(Met::Lost);
        }
        spot.content = self.file.content(spot.number, self.count);
        spot.met = true;
        Ok(Met::Whole)
    }

    fn end(&self) -> Reading {
        Reading::End {
            next: Place::unmarked(self.count as u64, 0),
        }
    }

    fn gap(&self, spot: &Spot) -> Reading {
        Reading::Gap {
            next: Place::behind_gap(spot.number as u64),
        }
    }

    /// "21 | content rule broken | block, offset where record, segment or
    /// rest begins"
    fn broken(&self, spot: &Spot, offset: usize, why: Event) -> Refusal {
        self.events.note(why);
        Refusal::at_two(21, spot.number, offset)
    }

    /// "the rest must be fill"
    fn need_fill(&self, spot: &Spot, offset: usize, why: Event) -> Result<(), Refusal> {
        if spot.block.is_fill(self.image, offset, spot.content) {
            self.events.note(Event::FillPassed);
            Ok(())
        } else {
            Err(self.broken(spot, offset, why))
        }
    }

    /// "inside the content", from the least a control word may say.
    fn need_length(
        &self,
        spot: &Spot,
        digits: Option<usize>,
        least: usize,
    ) -> Result<usize, Refusal> {
        let broken = |why| Err(self.broken(spot, spot.offset, why));
        match digits {
            None => broken(Event::NoDigits),
            Some(length) if length < least => broken(Event::LengthBelow),
            Some(length) if length > spot.left() => broken(Event::LengthOutside),
            Some(length) => Ok(length),
        }
    }

    /// Four decimal digits of the block.
    fn four_digits(&self, spot: &Spot, offset: usize) -> Option<usize> {
        let mut digits = [0; 4];
        spot.block.copy(self.image, offset, &mut digits);
        crate::text::decimal(&digits)
    }

    /// "Reading a place gives the record and the place right behind it."
    /// "23 | output too small | length needed". The record's only part
    /// starts at `offset` of the block met.
    fn hand_over(
        &self,
        spot: &Spot,
        offset: usize,
        length: usize,
        out: &mut [u8],
    ) -> Result<Reading, Refusal> {
        let Some(room) = out.get_mut(..length) else {
            return Err(Refusal::at(23, length));
        };
        spot.block.copy(self.image, offset, room);
        Ok(Reading::Record {
            length: length as u64,
            next: Place::unmarked(spot.number as u64, (offset + length) as u64),
        })
    }

    /// F: records of R bytes, one behind the other.
    fn fixed(&self, mut spot: Spot, out: &mut [u8]) -> Result<Reading, Refusal> {
        loop {
            match self.meet(&mut spot)? {
                Met::PastLast => return Ok(self.end()),
                Met::Lost => return Ok(self.gap(&spot)),
                Met::Whole => {}
            }
            if spot.left() > 0 {
                return self.hand_over(&spot, spot.offset, self.file.entry.r, out);
            }
            // "A place at the end of a block's content goes on in the next
            // block"
            spot.enter_next();
        }
    }

    /// "with fewer than 4 bytes left (S: 5), or at a byte 00, the rest must
    /// be fill": which of the two.
    fn rest(&self, spot: &Spot, few: bool) -> Option<Event> {
        if few {
            return Some(Event::FewLeft);
        }
        (spot.block.byte(self.image, spot.offset) == 0).then_some(Event::FillBroken)
    }

    /// "In V, with fewer than 4 bytes left ..., or at a byte 00, the rest
    /// must be fill. V: four digits, from 4 to R, then the body, inside the
    /// content; if unblocked, at offsets above 0 only fill."
    fn variable(&self, mut spot: Spot, out: &mut [u8]) -> Result<Reading, Refusal> {
        let entry = &self.file.entry;
        loop {
            match self.meet(&mut spot)? {
                Met::PastLast => return Ok(self.end()),
                Met::Lost => return Ok(self.gap(&spot)),
                Met::Whole => {}
            }
            let only_fill = !entry.blocked && spot.offset > 0;
            let rest = match spot.left() {
                _ if only_fill => Some(Event::BehindUnblocked),
                left => self.rest(&spot, left < 4),
            };
            if let Some(why) = rest {
                self.need_fill(&spot, spot.offset, why)?;
                spot.enter_next();
                continue;
            }
            let length = self.need_length(&spot, self.four_digits(&spot, spot.offset), 4)?;
            if length > entry.r {
                return Err(self.broken(&spot, spot.offset, Event::OverMaximum));
            }
            return self.hand_over(&spot, spot.offset + 4, length - 4, out);
        }
    }

    /// "S: `0`-`3`, four digits from 5, inside the content." None where the
    /// rest is fill.
    fn segment(&self, spot: &Spot) -> Result<Option<Segment>, Refusal> {
        if let Some(why) = self.rest(spot, spot.left() < 5) {
            self.need_fill(spot, spot.offset, why)?;
            return Ok(None);
        }
        let indicator = spot.block.byte(self.image, spot.offset);
        let length = self.need_length(spot, self.four_digits(spot, spot.offset + 1), 5)?;
        if !(b'0'..=b'3').contains(&indicator) {
            return Err(self.broken(spot, spot.offset, Event::NoIndicator));
        }
        Ok(Some(Segment { indicator, length }))
    }

    /// S: the first record found from the spot on, whole.
    fn spanned(&self, mut spot: Spot, mark: bool, out: &mut [u8]) -> Result<Reading, Refusal> {
        // "In plain reading, at offsets above 0, and in F and V, the mark
        // counts as absent."
        let marked = self.salvage && mark && spot.offset == 0;
        let mut joining = Joining {
            expect: if marked {
                Expect::Marked
            } else {
                Expect::Fresh
            },
            first: spot,
            length: 0,
        };
        loop {
            match self.meet(&mut spot)? {
                // "22 | file ends after a 1 or 2 not dropped"
                Met::PastLast if joining.expect == Expect::Midway => {
                    return Err(Refusal::bare(22));
                }
                Met::PastLast => return Ok(self.end()),
                // "Meeting it, also midway in a spanned record, gives one gap"
                Met::Lost => {
                    if joining.expect == Expect::Midway {
                        self.events.note(Event::GapMidway);
                    }
                    return Ok(self.gap(&spot));
                }
                Met::Whole => {}
            }
            // "A block of fill alone holds nothing", and "keeps" the mark.
            let Some(segment) = self.segment(&spot)? else {
                if joining.expect == Expect::Marked {
                    self.events.note(Event::MarkKept);
                }
                spot.enter_next();
                continue;
            };
            if let Some(behind) = self.join(&mut joining, &mut spot, &segment)? {
                return self.hand_over_spanned(&joining, &spot, behind, out);
            }
        }
    }

    /// Takes a segment met: the offset behind it if it ends a record, else
    /// the spot is moved on.
    fn join(
        &self,
        joining: &mut Joining,
        spot: &mut Spot,
        segment: &Segment,
    ) -> Result<Option<usize>, Refusal> {
        let dropped = self.drops(segment, joining.expect, spot)?;
        if !dropped {
            if joining.expect != Expect::Midway {
                joining.first = *spot;
            }
            joining.length += segment.length - 5;
            self.measure(joining.length, spot)?;
        }
        let behind = spot.offset + segment.length;
        let goes_on = matches!(segment.indicator, b'1' | b'2');
        if goes_on {
            // "After 1 or 2 the rest of the block is fill"
            self.need_fill(spot, behind, Event::BehindSegment)?;
            spot.enter_next();
        }
        joining.expect = match (goes_on, dropped) {
            (true, true) => Expect::Marked,
            (true, false) => Expect::Midway,
            (false, true) => {
                // "a 3 is dropped likewise and reading goes on without it"
                spot.offset = behind;
                Expect::Fresh
            }
            (false, false) => return Ok(Some(behind)),
        };
        Ok(None)
    }

    /// "a 2 is dropped, unmeasured by R, and the mark stays; a 3 is dropped
    /// likewise". An indicator that may not stand here breaks the rule.
    fn drops(&self, segment: &Segment, expect: Expect, spot: &Spot) -> Result<bool, Refusal> {
        let begins = matches!(segment.indicator, b'0' | b'1');
        match expect {
            Expect::Fresh if !begins => Err(self.broken(spot, spot.offset, Event::NotFirst)),
            Expect::Midway if begins => Err(self.broken(spot, spot.offset, Event::NotNext)),
            Expect::Marked if segment.indicator == b'2' => {
                self.events.note(Event::SecondDropped);
                Ok(true)
            }
            Expect::Marked if segment.indicator == b'3' => {
                self.events.note(Event::ThirdDropped);
                Ok(true)
            }
            _ => Ok(false),
        }
    }

    /// "A body over R (unless 0000) breaks the rule at the segment where it
    /// first exceeds."
    fn measure(&self, length: usize, spot: &Spot) -> Result<(), Refusal> {
        let most = self.file.entry.r;
        if most != 0 && length > most {
            return Err(self.broken(spot, spot.offset, Event::OverMaximum));
        }
        Ok(())
    }

    /// The second walk over a record found without fault: its bodies joined.
    fn hand_over_spanned(
        &self,
        joining: &Joining,
        last: &Spot,
        behind: usize,
        out: &mut [u8],
    ) -> Result<Reading, Refusal> {
        let length = joining.length;
        let Some(room) = out.get_mut(..length) else {
            return Err(Refusal::at(23, length));
        };
        let mut spot = joining.first;
        let mut done = 0;
        while let Met::Whole = self.meet(&mut spot)? {
            if let Some(segment) = self.segment(&spot)? {
                let part = &mut room[done..done + segment.length - 5];
                spot.block.copy(self.image, spot.offset + 5, part);
                done += part.len();
            }
            if spot.number == last.number {
                break;
            }
            spot.enter_next();
        }
        Ok(Reading::Record {
            length: length as u64,
            next: Place::unmarked(last.number as u64, behind as u64),
        })
    }
}
