// What a program is asked on its command line.

use std::env;
use std::error::Error;
use std::ffi::{OsStr, OsString};
use std::path::Path;

use crate::book::Book;
use crate::text;

pub const MOST_TAPS: usize = 256;

pub struct Options {
    pub book: Book,
    pub limit: usize,
    pub file: Option<OsString>,
}

impl Options {
    // None where help is asked for.
    pub fn read(takes_limit: bool) -> Result<Option<Options>, Box<dyn Error>> {
        let mut args = env::args_os().skip(1);
        let mut options = Options {
            book: Book::built_in(),
            limit: MOST_TAPS,
            file: None,
        };
        while let Some(arg) = args.next() {
            match arg.as_encoded_bytes() {
                b"--help" | b"-h" => return Ok(None),
                b"--book" => {
                    let path = args.next().ok_or("--book wants a file")?;
                    options.book = Book::read(Path::new(&path))?;
                }
                b"--limit" if takes_limit => {
                    options.limit = parse_limit(&args.next().ok_or("--limit wants a number")?)?;
                }
                [b'-', ..] => return Err(format!("unknown option {}", arg.display()).into()),
                _ if options.file.is_some() => return Err("more than one file".into()),
                _ => options.file = Some(arg),
            }
        }
        Ok(Some(options))
    }
}

fn parse_limit(arg: &OsStr) -> Result<usize, String> {
    text::number(arg.as_encoded_bytes())
        .map(|limit| limit as usize)
        .filter(|&limit| limit <= MOST_TAPS)
        .ok_or_else(|| format!("{} is no limit from 0 to {MOST_TAPS}", arg.display()))
}
