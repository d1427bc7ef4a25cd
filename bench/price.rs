// The program `price` once more, in plain Rust: what a reading of taps costs, gap by gap, counted from the rules in
// `docs/` and by nothing that looks for the best one.

use std::error::Error;
use std::fmt::{self, Write as _};
use std::fs;
use std::io::{self, Read as _, Write as _};
use std::process::ExitCode;

use book::Book;
use options::{MOST_TAPS, Options};

mod book;
mod options;
mod text;

const USAGE: &str = "usage: price [--book FILE] [INPUT]";

const TIME_END: u32 = 1 << 24;

#[derive(Clone, Copy)]
struct Note {
    ticks: u32,
    tempo: u32,
}

impl fmt::Display for Note {
    fn fmt(&self, f: &mut fmt::Formatter) -> fmt::Result {
        write!(f, "{}@{}", self.ticks, self.tempo)
    }
}

impl Note {
    fn parse(token: &[u8]) -> Option<Note> {
        let at = token.iter().position(|&byte| byte == b'@')?;
        let (ticks, tempo) = (&token[..at], &token[at + 1..]);
        Some(Note {
            ticks: text::number(ticks)?,
            tempo: text::number(tempo)?,
        })
    }

    // What a gap costs so, but for the change of tempo, where the book has such a note: of the kinds with its ticks as
    // the first of the lightest.
    fn local_cost(self, book: &Book, gap: u32) -> Option<u32> {
        let kinds = book.kinds.iter().filter(|kind| kind.ticks == self.ticks);
        let kind = kinds.min_by_key(|kind| kind.weight)?;
        let known = book.tempi.contains(&self.tempo);
        known.then(|| kind.local_cost(gap, self.tempo))
    }
}

// Taps as a desk would take them.
fn parse_taps(line: &[u8]) -> Result<Vec<u32>, String> {
    let mut taps = Vec::new();
    for (number, token) in text::tokens(line).enumerate() {
        let time = text::number(token)
            .ok_or_else(|| format!("tap {number}: {} is no time", token.escape_ascii()))?;
        if time >= TIME_END {
            return Err(format!("tap {number}: its time is not below 2^24 ms"));
        }
        if taps.last().is_some_and(|&last| time <= last) {
            return Err(format!("tap {number}: it is not later than the last"));
        }
        if number == MOST_TAPS {
            return Err(format!("tap {number}: there are more than 256 taps"));
        }
        taps.push(time);
    }
    Ok(taps)
}

fn parse_reading(line: &[u8]) -> Result<Vec<Note>, String> {
    let tokens: Vec<_> = text::tokens(line).collect();
    match tokens.as_slice() {
        [] => Err("the second line has no reading".into()),
        [b"none"] => Ok(Vec::new()),
        notes => notes
            .iter()
            .map(|token| {
                Note::parse(token).ok_or_else(|| format!("{} is no note", token.escape_ascii()))
            })
            .collect(),
    }
}

// A line for each gap, and one for all.
fn price(book: &Book, input: &[u8]) -> Result<String, Box<dyn Error>> {
    let mut lines = text::lines(input);
    let taps = lines.next().ok_or("there is no line of taps")?;
    let reading = lines.next().ok_or("there is no line of a reading")?;
    let taps = parse_taps(taps)?;
    let notes = parse_reading(reading)?;
    if lines.any(|line| text::tokens(line).next().is_some()) {
        return Err("there is more behind the reading".into());
    }
    let gaps = taps.len().saturating_sub(1);
    if notes.len() != gaps {
        return Err(format!("{} notes for {gaps} gaps", notes.len()).into());
    }
    let mut told = String::new();
    let mut all = 0;
    let mut before = None;
    for (taps, note) in taps.windows(2).zip(notes) {
        let local_cost = note
            .local_cost(book, taps[1] - taps[0])
            .ok_or_else(|| format!("the book has no {note}"))?;
        let change = book.change * note.tempo.abs_diff(before.unwrap_or(note.tempo));
        let cost = u64::from(local_cost) + u64::from(change);
        writeln!(told, "{note} {cost}")?;
        all += cost;
        before = Some(note.tempo);
    }
    writeln!(told, "all {all}")?;
    Ok(told)
}

fn run() -> Result<(), Box<dyn Error>> {
    let Some(options) = Options::read(false)? else {
        return Ok(writeln!(io::stdout(), "{USAGE}")?);
    };
    let mut input = Vec::new();
    match options.file {
        None => _ = io::stdin().read_to_end(&mut input)?,
        Some(path) => {
            input = fs::read(&path).map_err(|error| format!("{}: {error}", path.display()))?;
        }
    }
    let told = price(&options.book, &input)?;
    Ok(io::stdout().write_all(told.as_bytes())?)
}

fn main() -> ExitCode {
    let Err(error) = run() else {
        return ExitCode::SUCCESS;
    };
    eprintln!("price: {error}");
    ExitCode::FAILURE
}
