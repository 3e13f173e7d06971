//! The state of the long run: a file with a line for what is asked, then one for each whole block.
//!
//! A line ends with a mark made of itself and of the marks above it, so that a line that was cut,
//! changed, moved or taken away shows.

use std::fs::{self, File};
use std::io::{ErrorKind, Write};
use std::path::{Path, PathBuf};

use crate::functions;
use crate::functions::FUNCTIONS;
use crate::run::compare;
use crate::run::kinds::kinds;

/// The first word of the file, with the number of its format.
const NAME: &str = "peldozkar-day-1";

/// The mark of bytes that follow others which have that mark (FNV-1a, 64 bits).
pub fn mark(before: u64, bytes: &[u8]) -> u64 {
    let step = |mark: u64, &byte: &u8| (mark ^ u64::from(byte)).wrapping_mul(0x0000_0100_0000_01B3);
    bytes.iter().fold(before ^ 0xCBF2_9CE4_8422_2325, step)
}

/// What a run has counted: for each function and each kind, by their order.
pub struct Counted {
    pub functions: Vec<functions::compare::Tally>,
    pub kinds: Vec<compare::Tally>,
    /// The time taken, in milliseconds.
    pub time: u64,
}

impl Counted {
    pub fn new() -> Self {
        Self {
            functions: vec![functions::compare::Tally::default(); FUNCTIONS.len()],
            kinds: kinds().map(compare::Tally::new).collect(),
            time: 0,
        }
    }

    pub fn add(&mut self, other: &Self) {
        for (all, one) in self.functions.iter_mut().zip(&other.functions) {
            all.compared += one.compared;
            all.differ += one.differ;
            all.nan += one.nan;
        }
        for (all, one) in self.kinds.iter_mut().zip(&other.kinds) {
            all.add(one);
        }
        self.time += other.time;
    }

    pub fn tickets(&self) -> u64 {
        self.kinds.iter().map(|tally| tally.compared).sum()
    }

    pub fn accepted(&self) -> u64 {
        self.kinds.iter().map(|tally| tally.accepted).sum()
    }

    /// The tickets that differ or break a total.
    pub fn bad_tickets(&self) -> u64 {
        let bad = |tally: &compare::Tally| tally.differ + tally.totals.broken;
        self.kinds.iter().map(bad).sum()
    }

    pub fn arguments(&self) -> u64 {
        self.functions.iter().map(|tally| tally.compared).sum()
    }

    pub fn bad_arguments(&self) -> u64 {
        self.functions.iter().map(|tally| tally.differ).sum()
    }

    /// A line without its mark: what tells a reader most, then all that is counted.
    fn line(&self, block: u64) -> String {
        let mut line = format!(
            "block {block} tickets {} accepted {} differ {} time {} counted",
            self.tickets(),
            self.accepted(),
            self.bad_tickets() + self.bad_arguments(),
            self.time,
        );
        let functions = self
            .functions
            .iter()
            .flat_map(|tally| [tally.compared, tally.differ, tally.nan]);
        let kinds = self.kinds.iter().flat_map(compare::Tally::words);
        for word in functions.chain(kinds) {
            line += &format!(" {word:x}");
        }
        line
    }

    /// What the line of a block was made of.
    fn of_line(block: u64, line: &str) -> Option<Self> {
        let mut words = line.split(' ');
        let time = words.clone().nth(9)?.parse().ok()?;
        let mut words = words
            .by_ref()
            .skip(11)
            .map_while(|word| u64::from_str_radix(word, 16).ok());
        let mut counted = Self::new();
        counted.time = time;
        for tally in &mut counted.functions {
            tally.compared = words.next()?;
            tally.differ = words.next()?;
            tally.nan = words.next()?;
        }
        for (about, tally) in kinds().zip(&mut counted.kinds) {
            *tally = compare::Tally::of_words(about, &mut words)?;
        }
        // The words are all there is, and the figures before them are theirs.
        (counted.line(block) == line).then_some(counted)
    }
}

/// The state file, and what it says.
pub struct State {
    path: PathBuf,
    text: String,
    mark: u64,
    /// How many blocks are whole.
    pub blocks: u64,
    pub counted: Counted,
}

impl State {
    /// Takes up the state file, or begins it anew if there is none. The error says why neither
    /// can be done; the file is as it was then.
    pub fn open(path: &Path, asked: &str) -> Result<Self, String> {
        let shown = path.display();
        let mut state = Self {
            path: path.to_owned(),
            text: String::new(),
            mark: 0,
            blocks: 0,
            counted: Counted::new(),
        };
        let head = format!("{NAME} {asked}");
        let text = match fs::read(path) {
            Ok(bytes) => String::from_utf8(bytes)
                .map_err(|_| format!("{shown} is broken: it isn't text; it was left as it is"))?,
            Err(error) if error.kind() == ErrorKind::NotFound => {
                state.append(&head);
                return state
                    .write()
                    .map(|()| state)
                    .map_err(|error| format!("{shown} can't be written: {error}"));
            }
            Err(error) => return Err(format!("{shown} can't be read: {error}")),
        };
        let broken = |line: usize| {
            format!(
                "{shown} is broken at line {line}; it was left as it is: move it away to begin anew"
            )
        };
        let whole = text.strip_suffix('\n');
        for (i, marked) in whole.unwrap_or_default().split('\n').enumerate() {
            let (line, _) = marked.rsplit_once(' ').ok_or_else(|| broken(i + 1))?;
            if state.append(line) != marked {
                return Err(broken(i + 1));
            }
            if i == 0 {
                let found = line.strip_prefix(NAME).ok_or_else(|| broken(1))?;
                if line != head {
                    return Err(format!(
                        "{shown} is of another run:\n  it has   {}\n  asked is {asked}\nit was left as it is: move it away, or name another file with --state",
                        found.trim_start()
                    ));
                }
                continue;
            }
            let block = state.blocks;
            let counted = Counted::of_line(block, line).ok_or_else(|| broken(i + 1))?;
            state.counted.add(&counted);
            state.blocks += 1;
        }
        Ok(state)
    }

    /// Puts a line and its mark at the text's end; both.
    fn append(&mut self, line: &str) -> String {
        self.mark = mark(self.mark, line.as_bytes());
        let marked = format!("{line} {:016x}", self.mark);
        self.text += &marked;
        self.text.push('\n');
        marked
    }

    /// Writes a new file and puts it in the old one's place, so that there is a whole one always.
    fn write(&self) -> std::io::Result<()> {
        let mut name = self.path.clone().into_os_string();
        name.push(".new");
        let new = PathBuf::from(name);
        let mut file = File::create(&new)?;
        file.write_all(self.text.as_bytes())?;
        file.sync_all()?;
        fs::rename(&new, &self.path)
    }

    /// Counts a whole block in.
    pub fn keep(&mut self, counted: &Counted) -> Result<(), String> {
        self.append(&counted.line(self.blocks));
        self.write()
            .map_err(|error| format!("{} can't be written: {error}", self.path.display()))?;
        self.counted.add(counted);
        self.blocks += 1;
        Ok(())
    }
}
