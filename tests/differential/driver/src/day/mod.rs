//! The long run: many hostile tickets over all kinds, in blocks, so that it can be taken up again
//! where it was left.

pub mod hostile;
pub mod state;

use std::fs::{self, File};
use std::io::{IsTerminal, Write, stderr};
use std::panic::{AssertUnwindSafe, catch_unwind};
use std::path::{Path, PathBuf};
use std::time::Instant;

use crate::day::state::{Counted, State, mark};
use crate::functions::{self, FUNCTIONS, Function};
use crate::run::compare::{SHOWN, Side, Tally};
use crate::run::designers;
use crate::run::faults::FAULTS;
use crate::run::inputs;
use crate::run::kinds::{About, SHARES, kinds};
use crate::run::random::Random;
use crate::run::tickets::Ticket;

/// The most tickets of a block; a run has at least ten blocks if it can.
const BLOCK: u64 = 100_000;

/// How many differences of a kind or a function are kept of each block.
const KEPT: u64 = 500;

/// What is asked of a run.
pub struct Asked {
    pub tickets: u64,
    pub seed: u64,
    /// How many blocks are run at most, as if it were interrupted after them.
    pub stop_after: u64,
    /// Which planted fault stands in the port's place, from 1 on; 0 for none.
    pub planted: u64,
}

impl Asked {
    /// The tickets of a block but the last.
    fn block(&self) -> u64 {
        (self.tickets / 10).clamp(1, BLOCK)
    }

    fn blocks(&self) -> u64 {
        self.tickets.div_ceil(self.block())
    }

    /// The tickets of that block.
    fn size(&self, block: u64) -> u64 {
        self.block().min(self.tickets - block * self.block())
    }

    /// The port's side of a kind, or the planted fault in its place.
    fn side(&self, about: &About) -> Side {
        let place = self.planted.checked_sub(1);
        place
            .and_then(|place| FAULTS.iter().copied().flatten().nth(place as usize))
            .filter(|fault| fault.kind == about.kind)
            .map_or(designers::port, |fault| fault.wrong)
    }

    /// The seed of that block, which no other block has a part in.
    fn block_seed(&self, block: u64) -> u64 {
        let place = block.wrapping_mul(0xD1B5_4A32_D192_ED03);
        Random::new(self.seed).bits() ^ Random::new(place).bits()
    }
}

/// The file that the differences are put to, beside that of the state.
struct Differences {
    file: File,
    seed: u64,
    /// The block, and how many of the kind or function at hand it has had.
    block: u64,
    had: u64,
    /// How many were shown.
    shown: u64,
}

impl Differences {
    /// Opens it for this run alone.
    fn open(path: &Path, seed: u64) -> Result<Self, String> {
        let shown = path.display();
        let file = File::options()
            .append(true)
            .create(true)
            .open(path)
            .map_err(|error| format!("{shown} can't be written: {error}"))?;
        file.try_lock()
            .map_err(|_| format!("{shown} is in use: another run is at work"))?;
        Ok(Self {
            file,
            seed,
            block: 0,
            had: 0,
            shown: 0,
        })
    }

    /// Keeps a difference, and shows the first ones; one that can't be kept ends the run.
    fn keep(&mut self, name: &str, place: u64, told: &str) {
        self.had += 1;
        if self.had > KEPT {
            return;
        }
        let place = format!("seed {} block {} {name} {place}", self.seed, self.block);
        let mut text = format!("{place}\n{told}\n");
        if self.had == KEPT {
            text += "  no more of them are kept in this block\n";
        }
        if self.shown < SHOWN {
            self.shown += 1;
            eprint!("{text}");
        }
        self.file
            .write_all(text.as_bytes())
            .expect("the file of the differences can be written");
    }
}

/// The ticket's words, by which it can be told where its numbers in words can't.
fn with_words(told: &str, ticket: &Ticket) -> String {
    let words: String = ticket
        .words()
        .iter()
        .map(|word| format!(" {word:016X}"))
        .collect();
    format!("{told}\n    words{words}")
}

/// Compares a ticket. A side that panics is a difference too.
fn judge(
    tally: &mut Tally,
    about: &About,
    side: Side,
    ticket: &Ticket,
    differences: &mut Differences,
) {
    let place = tally.compared;
    let judged = catch_unwind(AssertUnwindSafe(|| tally.judge(about, ticket, side, true)));
    let told = match judged {
        Ok(None) => return,
        Ok(Some(finding)) => finding.told(ticket),
        Err(_) => {
            tally.compared = place + 1;
            tally.differ += 1;
            format!("  {ticket:?}\n    panicked")
        }
    };
    differences.keep(about.name, place, &with_words(&told, ticket));
}

/// One kind's part of a block.
fn tickets_of(
    about: &About,
    side: Side,
    telling: &[Ticket],
    count: u64,
    seed: u64,
    differences: &mut Differences,
) -> Tally {
    let mut random = Random::new(seed ^ u64::from(about.number) << 56);
    let mut tally = Tally::new(about);
    tally.lent = seed;
    differences.had = 0;
    if differences.block == 0 {
        for ticket in telling.iter().take(count as usize) {
            judge(&mut tally, about, side, ticket, differences);
        }
    }
    while tally.compared < count {
        let ticket = hostile::draw(about.kind, telling, &mut random);
        judge(&mut tally, about, side, &ticket, differences);
    }
    tally
}

/// One function's part of a block.
fn arguments_of(
    function: &Function,
    count: u64,
    seed: u64,
    differences: &mut Differences,
) -> functions::compare::Tally {
    let mut random = Random::new(seed ^ u64::from(function.digit) << 56);
    let mut tally = functions::compare::Tally::default();
    differences.had = 0;
    let first = differences.block == 0;
    let mut one = |x| {
        let place = tally.compared;
        if let Some(answers) = tally.judge(function, x) {
            let told = functions::compare::told(function, x, answers);
            differences.keep(function.name, place, &told);
        }
    };
    if first {
        functions::inputs::regular(function.shape)
            .into_iter()
            .for_each(&mut one);
    }
    for _ in 0..count {
        one(hostile::argument(function.shape, &mut random));
    }
    tally
}

/// Tells on the standard error how far the run is.
struct Progress {
    begun: Instant,
    /// The tickets that were done before.
    before: u64,
    all: u64,
    /// Whether the line is written over.
    in_place: bool,
}

impl Progress {
    fn tell(&self, done: u64, differ: u64) {
        let seconds = self.begun.elapsed().as_secs_f64();
        let rate = ((done - self.before) as f64 / seconds).max(1.0);
        let left = (self.all - done) as f64 / rate;
        let percent = 100.0 * done as f64 / self.all as f64;
        let (start, end) = if self.in_place {
            ("\r", "\x1B[K")
        } else {
            ("", "\n")
        };
        let line = format!(
            "{start}day: {percent:.1} %, {done} of {} tickets, {differ} differ, {rate:.0} tickets/s, {:.0} min {:02.0} s left{end}",
            self.all,
            (left / 60.0).floor(),
            (left % 60.0).floor(),
        );
        // Nobody may be there to read it.
        let _ = stderr().write_all(line.as_bytes());
    }
}

/// Runs a block.
fn run_block(
    asked: &Asked,
    telling: &[Vec<Ticket>],
    state: &State,
    progress: &Progress,
    differences: &mut Differences,
) -> Counted {
    let begun = Instant::now();
    let block = state.blocks;
    let (size, seed) = (asked.size(block), asked.block_seed(block));
    differences.block = block;
    let mut counted = Counted::new();
    for (function, tally) in FUNCTIONS.iter().zip(&mut counted.functions) {
        *tally = arguments_of(function, size / 2, seed, differences);
    }
    let mut shares = 0;
    for (place, (about, telling)) in kinds().zip(telling).enumerate() {
        let before = size * shares / SHARES;
        shares += about.share;
        let count = size * shares / SHARES - before;
        counted.kinds[place] =
            tickets_of(about, asked.side(about), telling, count, seed, differences);
        if progress.in_place {
            let differ = bad(&state.counted) + bad(&counted);
            progress.tell(state.counted.tickets() + counted.tickets(), differ);
        }
    }
    counted.time = begun.elapsed().as_millis() as u64;
    counted
}

/// The inputs that differ or break a total.
fn bad(counted: &Counted) -> u64 {
    counted.bad_tickets() + counted.bad_arguments()
}

/// Tells what was counted; true if nothing differs and no kind gave what it can't.
fn summary(asked: &Asked, counted: &Counted) -> bool {
    let mut good = bad(counted) == 0;
    for (function, tally) in FUNCTIONS.iter().zip(&counted.functions) {
        tally.print(function.name);
    }
    for (about, tally) in kinds().zip(&counted.kinds) {
        tally.print(about.name);
    }
    for (about, tally) in kinds().zip(&counted.kinds) {
        let (_, unforeseen) = tally.complete(about);
        good &= unforeseen == 0;
        if about.totals {
            tally.totals.print(about.name);
        }
    }
    println!(
        "day of seed {}: {} tickets, {} accepted, {} differ or break a total; {} arguments, {} differ",
        asked.seed,
        counted.tickets(),
        counted.accepted(),
        counted.bad_tickets(),
        counted.arguments(),
        counted.bad_arguments(),
    );
    good
}

/// The mark of this program, which holds the library and the Rust.
fn program() -> std::io::Result<u64> {
    Ok(mark(0, &fs::read(std::env::current_exe()?)?))
}

/// The file of the differences of a state file.
fn beside(state: &Path) -> PathBuf {
    let beside = state.with_extension("differences");
    if beside == state {
        state.with_extension("differences.kept")
    } else {
        beside
    }
}

/// Runs all blocks that aren't whole yet; why it couldn't, or whether all is well.
fn run_blocks(asked: &Asked, path: &Path) -> Result<bool, String> {
    if asked.tickets == 0 {
        return Err("no tickets are asked for".to_owned());
    }
    let program = program().map_err(|error| format!("this program can't be read: {error}"))?;
    let head = format!(
        "seed {} tickets {} block {} planted {} program {program:016x}",
        asked.seed,
        asked.tickets,
        asked.block(),
        asked.planted,
    );
    if let Some(folder) = path.parent() {
        // If it can't be made the file can't either, which is told.
        let _ = fs::create_dir_all(folder);
    }
    let mut differences = Differences::open(&beside(path), asked.seed)?;
    let mut state = State::open(path, &head)?;
    if state.blocks > asked.blocks() {
        return Err(format!("{} has more blocks than the run", path.display()));
    }
    if state.blocks > 0 {
        eprintln!(
            "day: taken up after {} of {} blocks",
            state.blocks,
            asked.blocks()
        );
    }
    let telling: Vec<Vec<Ticket>> = kinds().map(|about| inputs::telling(about.kind)).collect();
    let progress = Progress {
        begun: Instant::now(),
        before: state.counted.tickets(),
        all: asked.tickets,
        in_place: stderr().is_terminal(),
    };
    let last = asked
        .blocks()
        .min(state.blocks.saturating_add(asked.stop_after));
    while state.blocks < last {
        let counted = run_block(asked, &telling, &state, &progress, &mut differences);
        state.keep(&counted)?;
        progress.tell(state.counted.tickets(), bad(&state.counted));
    }
    if progress.in_place {
        eprintln!();
    }
    if state.blocks < asked.blocks() {
        eprintln!("day: stopped after {} of {} blocks", last, asked.blocks());
        return Ok(bad(&state.counted) == 0);
    }
    let good = summary(asked, &state.counted);
    if bad(&state.counted) > 0 {
        eprintln!("day: what differs is in {}", beside(path).display());
    }
    eprintln!("day: {} s in all", state.counted.time / 1000);
    Ok(good)
}

/// Runs or takes up the long run; true if it could and all is well.
pub fn run(asked: &Asked, state: &Path) -> bool {
    run_blocks(asked, state).unwrap_or_else(|why| {
        eprintln!("day: {why}");
        false
    })
}
