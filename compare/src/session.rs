//! One run of the comparison over a driver: each call's answer beside the
//! independent program's, what differs, and what was reached.

use crate::account::{holds, List};
use crate::cover::Cover;
use crate::drive::{expected, knows, outcome_of, Driver, Outcome};
use crate::make::Case;
use crate::model::{Answer, Call};
use crate::options::SHOWN;
use crate::packed::in_words;
use crate::slots;
use std::io;

/// The driver, and what has been compared so far.
pub struct Session {
    driver: Driver,
    seed: u64,
    stage: &'static str,
    number: usize,
    passed: usize,
    failed: usize,
    pub cover: Cover,
}

impl Session {
    pub fn start(command: &[String], seed: u64) -> io::Result<Session> {
        Ok(Session {
            driver: Driver::start(command)?,
            seed,
            stage: "",
            number: 0,
            passed: 0,
            failed: 0,
            cover: Cover::of_files(),
        })
    }

    /// The next calls are of a stage; what it found is printed behind it.
    pub fn stage(
        &mut self,
        name: &'static str,
        run: impl FnOnce(&mut Session) -> io::Result<()>,
    ) -> io::Result<()> {
        let (passed, failed) = self.tally();
        (self.stage, self.number) = (name, 0);
        run(self)?;
        let (alike, different) = (self.passed - passed, self.failed - failed);
        println!("{name}: {alike} alike, {different} different");
        Ok(())
    }

    /// Compares the answers to a case. The number that the library returned,
    /// if it is the right one and every byte is as it should be; of a write,
    /// create or delete, by its account too.
    pub fn compare(&mut self, case: &Case) -> io::Result<Option<u64>> {
        let alike = self.compare_whole(case)?;
        Ok(alike.map(|outcome| outcome.returned))
    }

    /// The same with every lent byte afterwards.
    pub fn compare_whole(&mut self, case: &Case) -> io::Result<Option<Outcome>> {
        let Some(right) = expected(&case.image, &case.call) else {
            return Ok(None);
        };
        let place = format!("seed {}, {} {}", self.seed, self.stage, self.number);
        self.number += 1;
        let is = match self.driver.ask(&case.image, &case.call) {
            Ok(Some(is)) => is,
            Ok(None) => return Ok(None),
            Err(error) => {
                let told = told(case);
                println!("{place}: the driver answered no more: {error}\n  {told}");
                self.failed += 1;
                return Err(error);
            }
        };
        if right == is {
            self.passed += 1;
            self.count(case, &is);
            let held = accounted(case, &is);
            return Ok(self.demand(case, held).then_some(is));
        }
        self.failed += 1;
        if self.failed <= SHOWN {
            println!("DIFFERENT: {place}\n  {}", told(case));
            println!("  the program: {}", said(&right, &right, case));
            println!("  the library: {}", said(&is, &right, case));
        }
        Ok(None)
    }

    /// What has to hold of answers in which both programs were alike, and
    /// whether it does. It counts only where it does not.
    pub fn demand(&mut self, case: &Case, held: Result<(), String>) -> bool {
        let Err(why) = held else { return true };
        self.failed += 1;
        if self.failed <= SHOWN {
            let (seed, stage, number) = (self.seed, self.stage, self.number);
            println!("NOT HELD: seed {seed}, before {stage} {number}: {why}");
            println!("  {}", told(case));
        }
        false
    }

    /// Compares every case that the driver knows the call of.
    pub fn compare_all(&mut self, cases: impl Iterator<Item = Case>) -> io::Result<()> {
        for case in cases.filter(|case| knows(&case.call)) {
            self.compare(&case)?;
        }
        Ok(())
    }

    /// The same of cases with the number that is right, so that a fault that
    /// both programs share shows as well.
    pub fn compare_told(&mut self, cases: impl Iterator<Item = (Case, u64)>) -> io::Result<()> {
        for (case, right) in cases.filter(|told| knows(&told.0.call)) {
            let held = match self.compare(&case)? {
                Some(is) if is != right => Err(format!("{is:#018x}, not {right:#018x}")),
                _ => Ok(()),
            };
            self.demand(&case, held);
        }
        Ok(())
    }

    /// The same of cases with their whole answers: every lent byte that is
    /// right as well. What they met of defective cylinders is counted.
    pub fn compare_answered(
        &mut self,
        cases: impl Iterator<Item = (Case, Answer)>,
    ) -> io::Result<()> {
        for (case, right) in cases {
            let right = outcome_of(&case.image, &case.call, right);
            let (Some(is), Some(right)) = (self.compare_whole(&case)?, right) else {
                continue;
            };
            let told = |outcome| said(outcome, &right, &case);
            let held = match is == right {
                true => Ok(()),
                false => Err(format!("{}, not {}", told(&is), told(&right))),
            };
            if self.demand(&case, held) {
                self.cover.count_cylinders(&case, is.returned);
            }
        }
        Ok(())
    }

    fn count(&mut self, case: &Case, outcome: &Outcome) {
        let [image, out, _] = &outcome.lent;
        let (call, returned) = (&case.call, outcome.returned);
        match call {
            Call::Write { .. } => self.cover.count_writing(case, returned, image),
            Call::Create { .. } | Call::Delete { .. } => self.cover.count_placing(case, returned),
            _ => self.cover.count_reading(&case.image, call, returned, out),
        }
    }

    /// How many comparisons passed and failed so far.
    pub fn tally(&self) -> (usize, usize) {
        (self.passed, self.failed)
    }

    /// Ends the driver, which is to end well, and prints what was reached,
    /// which is to be all of it. How many comparisons passed and failed.
    pub fn end(self) -> io::Result<(usize, usize)> {
        let mut failed = self.failed;
        if !self.driver.end()? {
            println!("the driver did not end well");
            failed += 1;
        }
        print!("{}", self.cover.text());
        for missing in self.cover.missing() {
            println!("never reached: {missing}");
            failed += 1;
        }
        Ok((self.passed, failed))
    }
}

/// Whether a write, a create or a delete left what the account of it says.
pub fn accounted(case: &Case, outcome: &Outcome) -> Result<(), String> {
    let (before, after, returned) = (&case.image, &outcome.lent[0], outcome.returned);
    match List::of(&case.call) {
        Some(list) => holds(before, after, &list, returned),
        None => slots::holds(before, after, &case.call, returned),
    }
}

/// How much of a call is printed.
const MOST_TOLD: usize = 1_500;

/// A case in words; the first ones of a long list.
fn told(case: &Case) -> String {
    let mut call = format!("{:?}", case.call);
    if call.len() > MOST_TOLD {
        call.truncate(MOST_TOLD);
        call += "..";
    }
    format!(
        "{call} of {} bytes, family {}",
        case.image.len(),
        case.family
    )
}

/// An outcome in words: what was returned, which lent bytes are others than
/// they should be.
fn said(outcome: &Outcome, right: &Outcome, case: &Case) -> String {
    let reads = matches!(case.call, Call::Read { .. } | Call::Salvage { .. });
    let mut text = format!(
        "{:#018x}, {}",
        outcome.returned,
        in_words(outcome.returned, reads)
    );
    if outcome.lent[0] != case.image {
        text += "; the image changed";
    }
    let names = match case.call {
        Call::Write { .. } => ["image", "bodies", "lengths"],
        Call::Create { .. } => ["image", "fields", "third string"],
        _ => ["image", "output", "third string"],
    };
    for ((is, should), name) in outcome.lent.iter().zip(&right.lent).zip(names) {
        let other = is.iter().zip(should).position(|(is, should)| is != should);
        if let Some(at) = other {
            let (is, should) = (is[at], should[at]);
            text += &format!("; byte {at} of the {name} is {is:02x}, not {should:02x}");
        }
    }
    if outcome.parts {
        text += "; the header takes it apart wrongly";
    }
    if outcome.around {
        text += "; bytes that were not lent changed";
    }
    text
}
