// The rhythm desk a third time, for small books and few taps: what it tells of readings it finds by trying every one,
// in their order, as the rules in `docs/` say what they cost. It has no rows and looks for nothing cleverly.

use std::error::Error;
use std::fs;
use std::io::{self, Write as _};
use std::process::ExitCode;

use book::Book;
use options::Options;

// What a gap costs is written here once more.
#[expect(dead_code)]
mod book;
mod options;
mod text;

const USAGE: &str = "usage: tried [--book FILE] [--limit N] CALLS";

const TIME_END: u32 = 1 << 24;

// How a gap is read: as which kind and at which tempo of the book, by their places.
#[derive(Clone, Copy, Default)]
struct Note {
    kind: usize,
    tempo: usize,
}

// The reading that comes next, where there is one: as a number is counted up whose digits are notes, the last gap's the
// lowest. A note's kind counts before its tempo.
fn count_up(book: &Book, reading: &mut [Note]) -> bool {
    for note in reading.iter_mut().rev() {
        note.tempo += 1;
        if note.tempo < book.tempi.len() {
            return true;
        }
        note.tempo = 0;
        note.kind += 1;
        if note.kind < book.kinds.len() {
            return true;
        }
        note.kind = 0;
    }
    false
}

// What a reading of taps costs: for each gap how far twelve times the gap is from the kind's ticks times the tempo, and
// the kind's weight, and, but for the first gap, the change times how far its tempo is from that of the gap before.
fn cost(book: &Book, taps: &[u32], reading: &[Note]) -> u64 {
    let mut all = 0;
    for (place, note) in reading.iter().enumerate() {
        let gap = u64::from(taps[place + 1] - taps[place]);
        let kind = book.kinds[note.kind];
        let tempo = u64::from(book.tempi[note.tempo]);
        all += (12 * gap).abs_diff(u64::from(kind.ticks) * tempo) + u64::from(kind.weight);
        if place > 0 {
            let before = u64::from(book.tempi[reading[place - 1].tempo]);
            all += u64::from(book.change) * tempo.abs_diff(before);
        }
    }
    all
}

// The least that a reading costs, and the first reading that costs it.
fn best(book: &Book, taps: &[u32]) -> (u64, Vec<Note>) {
    let mut reading = vec![Note::default(); taps.len().saturating_sub(1)];
    let mut least = cost(book, taps, &reading);
    let mut first = reading.clone();
    while count_up(book, &mut reading) {
        let cost = cost(book, taps, &reading);
        if cost < least {
            least = cost;
            first.clone_from(&reading);
        }
    }
    (least, first)
}

struct Desk {
    book: Book,
    limit: usize,
    taps: Vec<u32>,
}

impl Desk {
    // What a line is answered, where it is a call.
    fn answer(&mut self, line: &[u8]) -> Option<String> {
        let tokens: Vec<_> = text::tokens(line).collect();
        match tokens.as_slice() {
            [b"tap", time] => text::number(time).map(|time| self.tap(time)),
            [b"back"] => Some(self.back()),
            [b"cost"] => Some(best(&self.book, &self.taps).0.to_string()),
            [b"read"] => Some(self.shown(&best(&self.book, &self.taps).1)),
            _ => None,
        }
    }

    fn tap(&mut self, time: u32) -> String {
        if time >= TIME_END {
            return "refused 2 at 0".into();
        }
        if self.taps.last().is_some_and(|&last| time <= last) {
            return "refused 4 at 0".into();
        }
        if self.taps.len() == self.limit {
            return "refused 6 at 0".into();
        }
        self.taps.push(time);
        (self.taps.len() - 1).to_string()
    }

    fn back(&mut self) -> String {
        if self.taps.pop().is_none() {
            return "refused 5 at 0".into();
        }
        self.taps.len().to_string()
    }

    fn shown(&self, reading: &[Note]) -> String {
        if reading.is_empty() {
            return "none".into();
        }
        let notes: Vec<_> = reading
            .iter()
            .map(|note| {
                let ticks = self.book.kinds[note.kind].ticks;
                let tempo = self.book.tempi[note.tempo];
                format!("{ticks}@{tempo}")
            })
            .collect();
        notes.join(" ")
    }
}

fn run() -> Result<(), Box<dyn Error>> {
    let Some(options) = Options::read(true)? else {
        return Ok(writeln!(io::stdout(), "{USAGE}")?);
    };
    let mut desk = Desk {
        book: options.book,
        limit: options.limit,
        taps: Vec::new(),
    };
    let calls = fs::read(options.file.ok_or(USAGE)?)?;
    let mut answers = String::new();
    for (number, line) in text::lines(&calls).enumerate() {
        let answer = desk.answer(line);
        answers += &answer.unwrap_or_else(|| format!("refused 1 at {number}"));
        answers.push('\n');
    }
    Ok(io::stdout().write_all(answers.as_bytes())?)
}

fn main() -> ExitCode {
    let Err(error) = run() else {
        return ExitCode::SUCCESS;
    };
    eprintln!("tried: {error}");
    ExitCode::FAILURE
}
