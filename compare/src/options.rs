//! The words of the command lines: numbers by name, and a command to be run.

/// How many differences a comparison prints in full.
pub const SHOWN: usize = 10;

/// The seed of every run that names none.
pub const SEED: u64 = 28_081;

/// Numbers by their names, from what they are if nothing is said.
#[derive(Clone, Debug)]
pub struct Options {
    numbers: Vec<(&'static str, u64)>,
    /// Behind `--`.
    pub command: Vec<String>,
}

impl Options {
    /// `[--NAME NUMBER]..`; none if the words are anything else.
    pub fn numbers<T: AsRef<str>>(
        words: &[T],
        defaults: &[(&'static str, u64)],
    ) -> Option<Options> {
        let mut numbers = defaults.to_vec();
        for pair in words.chunks(2) {
            let [name, value] = pair else { return None };
            let name = name.as_ref().strip_prefix("--")?;
            let number = numbers.iter_mut().find(|number| number.0 == name)?;
            number.1 = value.as_ref().parse().ok()?;
        }
        Some(Options {
            numbers,
            command: Vec::new(),
        })
    }

    /// `[--NAME NUMBER].. -- COMMAND..`
    pub fn with_command(words: &[String], defaults: &[(&'static str, u64)]) -> Option<Options> {
        let split = words.iter().position(|word| word == "--")?;
        let options = Options::numbers(&words[..split], defaults)?;
        Some(Options {
            command: words[split + 1..].to_vec(),
            ..options
        })
    }

    /// The number of a name; 0 if there is none of it.
    pub fn number(&self, name: &str) -> u64 {
        let found = self.numbers.iter().find(|number| number.0 == name);
        found.map_or(0, |number| number.1)
    }

    /// The same as a count.
    pub fn count(&self, name: &str) -> usize {
        self.number(name) as usize
    }
}
