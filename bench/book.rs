// Books, built in or read from lines.

use std::fs;
use std::ops::RangeInclusive;
use std::path::Path;

use crate::text;

const MOST_KINDS: usize = 32;
const MOST_TEMPI: usize = 64;
const TICKS: RangeInclusive<u32> = 1..=96;
const WEIGHTS: RangeInclusive<u32> = 0..=(1 << 24) - 1;
const TEMPI: RangeInclusive<u32> = 100..=4000;
const CHANGES: RangeInclusive<u32> = 0..=(1 << 16) - 1;

#[derive(Clone, Copy)]
pub struct Kind {
    pub ticks: u32,
    pub weight: u32,
}

impl Kind {
    // What a gap costs as this kind at this tempo, but for the change of tempo.
    pub fn local_cost(self, gap: u32, tempo: u32) -> u32 {
        (12 * gap).abs_diff(self.ticks * tempo) + self.weight
    }

    fn parse(tokens: &[&[u8]]) -> Result<Kind, &'static str> {
        let &[name, ticks, b"weight", weight] = tokens else {
            return Err("a kind is `NAME TICKS, weight WEIGHT`");
        };
        if !is_name(name) {
            return Err("a kind's name is letters and hyphens, and not `tempi` or `change`");
        }
        let ticks = ticks
            .strip_suffix(b",")
            .and_then(|ticks| bounded(ticks, TICKS))
            .ok_or("a kind has 1 to 96 ticks, with a comma behind them")?;
        let weight = bounded(weight, WEIGHTS).ok_or("a weight is a number below 2^24")?;
        Ok(Kind { ticks, weight })
    }
}

pub struct Book {
    pub kinds: Vec<Kind>,
    pub tempi: Vec<u32>,
    pub change: u32,
}

impl Book {
    pub fn built_in() -> Book {
        Book::parse(include_bytes!("../books/all.book")).expect("books/all.book is a book")
    }

    pub fn read(path: &Path) -> Result<Book, String> {
        fs::read(path)
            .map_err(|error| error.to_string())
            .and_then(|text| Book::parse(&text))
            .map_err(|reason| format!("{}: {reason}", path.display()))
    }

    // Of what is no book it says at which line that shows, from 1: where the book ends too early, at the line behind it.
    fn parse(text: &[u8]) -> Result<Book, String> {
        let mut lines = Lines {
            rest: text,
            number: 0,
        };
        Book::of_lines(&mut lines).map_err(|reason| format!("line {}: {reason}", lines.number))
    }

    fn of_lines(lines: &mut Lines) -> Result<Book, &'static str> {
        let mut kinds = Vec::new();
        let mut line = lines.next().ok_or("the book has no kind")?;
        while kinds.is_empty() || line[0] != b"tempi" {
            let kind = Kind::parse(&line)?;
            if kinds.len() == MOST_KINDS {
                return Err("there are more than 32 kinds");
            }
            kinds.push(kind);
            line = lines.next().ok_or("the book has no tempi")?;
        }
        let tempi = parse_tempi(&line[1..])?;
        let line = lines.next().ok_or("the book has no change")?;
        let change = parse_change(&line)?;
        if lines.next().is_some() {
            return Err("nothing comes behind the change");
        }
        Ok(Book {
            kinds,
            tempi,
            change,
        })
    }
}

struct Lines<'a> {
    rest: &'a [u8],
    // That of the line that `next` told last; where it told none, of the line that is missing.
    number: usize,
}

impl<'a> Lines<'a> {
    // The tokens of the next line that is not passed over.
    fn next(&mut self) -> Option<Vec<&'a [u8]>> {
        loop {
            self.number += 1;
            let line = text::lines(self.rest).next()?;
            self.rest = &self.rest[line.len()..];
            let tokens: Vec<_> = text::tokens(line).collect();
            if tokens.first().is_some_and(|token| token[0] != b'#') {
                return Some(tokens);
            }
        }
    }
}

fn is_name(name: &[u8]) -> bool {
    let letters = name
        .iter()
        .all(|&byte| byte.is_ascii_alphabetic() || byte == b'-');
    letters && name != b"tempi" && name != b"change"
}

fn parse_tempi(numbers: &[&[u8]]) -> Result<Vec<u32>, &'static str> {
    if numbers.is_empty() || numbers.len() > MOST_TEMPI {
        return Err("there are 1 to 64 tempi");
    }
    let tempi: Vec<u32> = numbers
        .iter()
        .map(|tempo| bounded(tempo, TEMPI))
        .collect::<Option<_>>()
        .ok_or("a tempo is a number from 100 to 4000")?;
    if !tempi.is_sorted_by(|tempo, next| tempo < next) {
        return Err("each tempo is larger than the one before");
    }
    Ok(tempi)
}

fn parse_change(tokens: &[&[u8]]) -> Result<u32, &'static str> {
    let &[b"change", change] = tokens else {
        return Err("behind the tempi comes `change CHANGE`");
    };
    bounded(change, CHANGES).ok_or("a change is a number below 65536")
}

fn bounded(digits: &[u8], bounds: RangeInclusive<u32>) -> Option<u32> {
    text::number(digits).filter(|number| bounds.contains(number))
}
