//! The library behind a C driver, asked over a pipe: `driver/driver.c` says
//! the form of requests and answers.

use crate::model::{answer, Answer, Call};
use std::io::{self, BufReader, Read, Write};
use std::process::{Child, ChildStdin, ChildStdout, Command, Stdio};

/// What a call lends: the image, then name, output, bodies or fields, then
/// lengths.
pub const STRINGS: usize = 3;

/// A byte before or behind a lent string has changed.
const AROUND: u8 = 128;

/// The parts that the C header gives are not those of the number.
const PARTS: u8 = 64;

/// A request as the driver reads it.
struct Request {
    number: u8,
    numbers: [u64; 4],
    lent: [Vec<u8>; STRINGS],
}

/// What a call returned, and every lent byte afterwards.
#[derive(Clone, Debug, PartialEq, Eq)]
pub struct Outcome {
    pub returned: u64,
    pub lent: [Vec<u8>; STRINGS],
    /// Bytes that were not lent have changed.
    pub around: bool,
    /// The functions of the C header take the number apart wrongly.
    pub parts: bool,
}

/// The request of a call that the driver knows.
fn request(image: &[u8], call: &Call) -> Option<Request> {
    let (number, numbers, second, third) = match call {
        Call::Judge => (0, [0; 4], Vec::new(), Vec::new()),
        Call::Find { name } => (1, [0; 4], name.clone(), Vec::new()),
        Call::Count { slot } => (2, [*slot, 0, 0, 0], Vec::new(), Vec::new()),
        Call::Free => (3, [0; 4], Vec::new(), Vec::new()),
        #[rustfmt::skip]
        Call::Read { slot, block, offset, mark, out } => {
            (4, [*slot, *block, *offset, *mark], out.clone(), Vec::new())
        },
        #[rustfmt::skip]
        Call::Salvage { slot, block, offset, mark, out } => {
            (5, [*slot, *block, *offset, *mark], out.clone(), Vec::new())
        },
        #[rustfmt::skip]
        Call::Write { slot, bodies, lengths } => {
            (6, [*slot, 0, 0, 0], bodies.clone(), bytes_of(lengths))
        },
        Call::Create { fields, n } => (7, [*n, 0, 0, 0], fields.clone(), Vec::new()),
        Call::Delete { slot } => (8, [*slot, 0, 0, 0], Vec::new(), Vec::new()),
        Call::Physical { cylinder } => (9, [*cylinder, 0, 0, 0], Vec::new(), Vec::new()),
        Call::Listing => return None,
    };
    Some(Request {
        number,
        numbers,
        lent: [image.to_vec(), second, third],
    })
}

/// Lengths as they are lent, the lowest byte of each first.
fn bytes_of(lengths: &[u32]) -> Vec<u8> {
    lengths
        .iter()
        .flat_map(|length| length.to_le_bytes())
        .collect()
}

fn lengths_of(bytes: &[u8]) -> Vec<u32> {
    bytes
        .chunks_exact(4)
        .map(|length| u32::from_le_bytes([length[0], length[1], length[2], length[3]]))
        .collect()
}

pub fn knows(call: &Call) -> bool {
    request(&[], call).is_some()
}

/// What the independent program says of a call that the driver knows.
pub fn expected(image: &[u8], call: &Call) -> Option<Outcome> {
    outcome_of(image, call, answer(image, call))
}

/// What the library has to do of such a call for an answer to be its own.
pub fn outcome_of(image: &[u8], call: &Call, said: Answer) -> Option<Outcome> {
    let [_, second, third] = request(image, call)?.lent;
    let second = match call {
        Call::Read { .. } | Call::Salvage { .. } => said.out,
        _ => second,
    };
    Some(Outcome {
        returned: said.packed,
        lent: [said.image, second, third],
        around: false,
        parts: false,
    })
}

/// A running driver.
pub struct Driver {
    child: Child,
    input: ChildStdin,
    output: BufReader<ChildStdout>,
}

impl Driver {
    pub fn start(command: &[String]) -> io::Result<Driver> {
        let missing = || io::Error::other("no command of a driver");
        let (program, words) = command.split_first().ok_or_else(missing)?;
        let mut child = Command::new(program)
            .args(words)
            .stdin(Stdio::piped())
            .stdout(Stdio::piped())
            .spawn()?;
        let (Some(input), Some(output)) = (child.stdin.take(), child.stdout.take()) else {
            return Err(missing());
        };
        Ok(Driver {
            child,
            input,
            output: BufReader::new(output),
        })
    }

    /// The outcome of a call; none if the driver does not know it.
    pub fn ask(&mut self, image: &[u8], call: &Call) -> io::Result<Option<Outcome>> {
        let Some(request) = request(image, call) else {
            return Ok(None);
        };
        self.input.write_all(&request.bytes())?;
        self.input.flush()?;
        self.outcome(request.lent).map(Some)
    }

    fn outcome(&mut self, mut lent: [Vec<u8>; STRINGS]) -> io::Result<Outcome> {
        let mut head = [0; 9];
        self.output.read_exact(&mut head)?;
        let [returned @ .., changed] = head;
        for (place, string) in lent.iter_mut().enumerate() {
            if changed >> place & 1 == 1 {
                self.output.read_exact(string)?;
            }
        }
        Ok(Outcome {
            returned: u64::from_le_bytes(returned),
            lent,
            around: changed & AROUND != 0,
            parts: changed & PARTS != 0,
        })
    }

    /// Ends the input and waits; whether the driver ended well.
    pub fn end(self) -> io::Result<bool> {
        let Driver {
            mut child, input, ..
        } = self;
        drop(input);
        Ok(child.wait()?.success())
    }
}

fn number(input: &mut impl Read) -> io::Result<u64> {
    let mut bytes = [0; 8];
    input.read_exact(&mut bytes)?;
    Ok(u64::from_le_bytes(bytes))
}

impl Request {
    /// The next request; none where the input ends.
    fn read(input: &mut impl Read) -> io::Result<Option<Request>> {
        let mut first = [0];
        if input.read(&mut first)? == 0 {
            return Ok(None);
        }
        let mut request = Request {
            number: first[0],
            numbers: [0; 4],
            lent: Default::default(),
        };
        for place in &mut request.numbers {
            *place = number(input)?;
        }
        for string in &mut request.lent {
            *string = vec![0; number(input)? as usize];
            input.read_exact(string)?;
        }
        Ok(Some(request))
    }

    fn call(&self) -> io::Result<Call> {
        let [slot, block, offset, mark] = self.numbers;
        let out = self.lent[1].clone();
        Ok(match self.number {
            0 => Call::Judge,
            1 => Call::Find {
                name: self.lent[1].clone(),
            },
            2 => Call::Count { slot },
            3 => Call::Free,
            #[rustfmt::skip]
            4 => Call::Read { slot, block, offset, mark, out },
            #[rustfmt::skip]
            5 => Call::Salvage { slot, block, offset, mark, out },
            6 => Call::Write {
                slot,
                bodies: self.lent[1].clone(),
                lengths: lengths_of(&self.lent[2]),
            },
            7 => Call::Create {
                fields: self.lent[1].clone(),
                n: slot,
            },
            8 => Call::Delete { slot },
            9 => Call::Physical { cylinder: slot },
            _ => return Err(io::Error::other("no such call")),
        })
    }

    fn bytes(&self) -> Vec<u8> {
        let mut bytes = vec![self.number];
        for number in self.numbers {
            bytes.extend(number.to_le_bytes());
        }
        for string in &self.lent {
            bytes.extend((string.len() as u64).to_le_bytes());
            bytes.extend(string);
        }
        bytes
    }
}

/// Answers requests as a driver does till the input ends, with any program in
/// the place of the library: what it says of a call, lent bytes included. Every
/// answer whose turn `wrong` divides is wrong, in turn in the number, in lent
/// bytes, in a byte that was not lent and in the header. It serves the tests of
/// the comparison itself.
pub fn serve_by(
    input: &mut impl Read,
    output: &mut impl Write,
    wrong: usize,
    mut said: impl FnMut(&[u8], &Call) -> Option<Outcome>,
) -> io::Result<()> {
    let mut turn = 0;
    while let Some(request) = Request::read(input)? {
        turn += 1;
        let call = request.call()?;
        let mut outcome = said(&request.lent[0], &call).ok_or(io::ErrorKind::Unsupported)?;
        if wrong > 0 && turn % wrong == 0 {
            spoil(&mut outcome, turn / wrong);
        }
        output.write_all(&outcome.bytes(&request.lent))?;
        output.flush()?;
    }
    Ok(())
}

/// Makes an outcome wrong, in turn in four ways; lent bytes all at once, so
/// that some are if any were lent, else the number.
fn spoil(outcome: &mut Outcome, turn: usize) {
    let lent = outcome.lent.iter().any(|string| !string.is_empty());
    match turn % 4 {
        1 => outcome.around = true,
        2 => outcome.parts = true,
        3 if lent => outcome
            .lent
            .iter_mut()
            .flatten()
            .for_each(|byte| *byte = !*byte),
        _ => outcome.returned ^= 1,
    }
}

impl Outcome {
    /// As the driver tells it, of the bytes that were lent.
    fn bytes(&self, lent: &[Vec<u8>; STRINGS]) -> Vec<u8> {
        let mut bytes = self.returned.to_le_bytes().to_vec();
        let mut changed = u8::from(self.around) * AROUND + u8::from(self.parts) * PARTS;
        let mut strings: Vec<u8> = Vec::new();
        for (place, (now, before)) in self.lent.iter().zip(lent).enumerate() {
            if now != before {
                changed |= 1 << place;
                strings.extend(now);
            }
        }
        bytes.push(changed);
        bytes.extend(strings);
        bytes
    }
}
