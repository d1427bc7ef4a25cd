// Writes a random book, as lines, a random list of calls for a desk with that book and that limit, and for `price` the
// taps that are held at the end with a random reading of them: for a seed always the same.

use std::collections::BTreeSet;
use std::env;
use std::error::Error;
use std::fs;
use std::iter;
use std::ops::RangeInclusive;
use std::process::ExitCode;

const USAGE: &str = "usage: random SEED KINDS TEMPI LIMIT CALLS BOOK_FILE CALLS_FILE PRICE_FILE";

const MOST_KINDS: u64 = 32;
const MOST_TEMPI: u64 = 64;
// Kinds and tempi of a small book.
const FEW: RangeInclusive<u64> = 1..=3;
const MOST_TAPS: usize = 256;
const TIME_END: u64 = 1 << 24;
// From here on there may not be room for 256 taps any more.
const LATE: u64 = TIME_END - (1 << 20);

// Numbers that look random (SplitMix64).
struct Random(u64);

impl Random {
    fn next(&mut self) -> u64 {
        self.0 = self.0.wrapping_add(0x9e37_79b9_7f4a_7c15);
        let mixed = (self.0 ^ (self.0 >> 30)).wrapping_mul(0xbf58_476d_1ce4_e5b9);
        let mixed = (mixed ^ (mixed >> 27)).wrapping_mul(0x94d0_49bb_1331_11eb);
        mixed ^ (mixed >> 31)
    }

    fn below(&mut self, end: u64) -> u64 {
        self.next() % end
    }

    fn between(&mut self, first: u64, last: u64) -> u64 {
        first + self.below(last - first + 1)
    }

    // A number of at most so many bits, small ones as often as large ones.
    fn of_bits(&mut self, most: u64) -> u64 {
        let bits = self.between(0, most);
        self.below(1 << bits)
    }

    fn percent(&mut self, chance: u64) -> bool {
        self.below(100) < chance
    }

    fn pick<T: Copy>(&mut self, items: &[T]) -> T {
        items[self.below(items.len() as u64) as usize]
    }
}

struct Book {
    // Ticks and weight.
    kinds: Vec<(u64, u64)>,
    tempi: Vec<u64>,
    change: u64,
}

impl Book {
    // Where weights, changes and tempi are few and round, many readings cost as much as others, and which one is the
    // first matters; so most books are such.
    fn random(random: &mut Random, kinds: u64, tempi: u64) -> Book {
        if FEW.contains(&kinds) && FEW.contains(&tempi) && random.percent(75) {
            return Book::of_ties(random, kinds, tempi);
        }
        let kinds = count(random, kinds, MOST_KINDS);
        let tempi = count(random, tempi, MOST_TEMPI);
        if random.percent(75) {
            let weights = [
                0,
                random.pick(&[0, 1, 12, 600]),
                random.pick(&[0, 600, 1200, 5000]),
            ];
            Book {
                kinds: (0..kinds)
                    .map(|_| (round_ticks(random), random.pick(&weights)))
                    .collect(),
                tempi: round_tempi(random, tempi),
                change: random.pick(&[0, 0, 1, 6, 12, 20, 100]),
            }
        } else {
            Book {
                kinds: (0..kinds)
                    .map(|_| (random.between(1, 96), random.of_bits(24)))
                    .collect(),
                tempi: some_tempi(random, tempi, 1),
                change: random.of_bits(16),
            }
        }
    }

    // Few notes, of which many last as long as others, and weigh as much, or 12 more, as much as being off by a ms.
    fn of_ties(random: &mut Random, kinds: u64, tempi: u64) -> Book {
        let light = random.pick(&[0, 1, 12, 600]);
        let weights = [light, light, light + 12];
        let tempo = random.pick(&[100, 125, 150, 200]);
        Book {
            kinds: (0..kinds)
                .map(|_| (random.pick(&[3, 4, 6, 8, 12, 24]), random.pick(&weights)))
                .collect(),
            tempi: distinct(tempi, || tempo * random.pick(&[1, 2, 3, 4, 6, 8])),
            change: random.pick(&[0, 0, 0, 1, 6, 12]),
        }
    }

    fn text(&self, random: Random) -> Vec<u8> {
        let mut scribe = Scribe {
            random,
            text: Vec::new(),
        };
        for &(ticks, weight) in &self.kinds {
            let name = scribe.random.pick(&NAMES);
            let ticks = format!("{},", scribe.number(ticks));
            let weight = scribe.number(weight);
            scribe.line(&[name, &ticks, "weight", &weight]);
        }
        let tempi: Vec<_> = self
            .tempi
            .iter()
            .map(|&tempo| scribe.number(tempo))
            .collect();
        let tempi = tempi.iter().map(String::as_str);
        let tempi: Vec<_> = iter::once("tempi").chain(tempi).collect();
        scribe.line(&tempi);
        let change = scribe.number(self.change);
        scribe.line(&["change", &change]);
        scribe.end()
    }
}

// Names that look like other words of a book, too.
const NAMES: [&str; 10] = [
    "quarter",
    "dotted-eighth",
    "Half",
    "x",
    "-",
    "weight",
    "none",
    "Tempi",
    "tempi-",
    "changes",
];

// Writes the lines of a book, mostly plainly; now and then with what a book may have besides.
struct Scribe {
    random: Random,
    text: Vec<u8>,
}

impl Scribe {
    fn number(&mut self, number: u64) -> String {
        let zeros = match self.random.below(20) {
            0 => "0",
            1 => "00000000000000000000000000",
            _ => "",
        };
        format!("{zeros}{number}")
    }

    fn line(&mut self, tokens: &[&str]) {
        self.passed_over();
        let odd = self.random.percent(20);
        if odd {
            let front = self.random.pick(&["", " ", "\t", "\x0c \r"]);
            self.text.extend(front.as_bytes());
        }
        for (place, token) in tokens.iter().enumerate() {
            let blank = match place {
                0 => "",
                _ if odd => self.random.pick(&[" ", "  ", "\t", "\r", "\x0c", " \t "]),
                _ => " ",
            };
            self.text.extend(blank.as_bytes());
            self.text.extend(token.as_bytes());
        }
        if odd {
            let end = self.random.pick(&["", " ", "\r", " \t\x0c\r"]);
            self.text.extend(end.as_bytes());
        }
        self.text.push(b'\n');
    }

    // Lines that say nothing.
    fn passed_over(&mut self) {
        let lines: [&[u8]; 8] = [
            b"",
            b" \t\r",
            b"#",
            b"# a comment",
            b"\t#quarter 12, weight 0",
            b"## tempi 400 500",
            b"# change 20\r",
            b"# \xff\xfe\x00",
        ];
        while self.random.percent(10) {
            self.text.extend(self.random.pick(&lines));
            self.text.push(b'\n');
        }
    }

    // The last line needs no end.
    fn end(mut self) -> Vec<u8> {
        self.passed_over();
        if self.random.percent(30) {
            self.text.pop();
        }
        self.text
    }
}

// The number that is asked for; for 0 a random one, mostly a small one.
fn count(random: &mut Random, asked: u64, most: u64) -> u64 {
    match asked {
        0 if random.percent(80) => random.between(1, 6),
        0 => random.between(1, most),
        _ => asked,
    }
}

fn round_ticks(random: &mut Random) -> u64 {
    random.pick(&[
        1, 2, 3, 4, 6, 6, 8, 9, 12, 12, 16, 18, 24, 24, 36, 48, 72, 96,
    ])
}

fn round_tempi(random: &mut Random, count: u64) -> Vec<u64> {
    if random.percent(50) {
        return some_tempi(random, count, 50);
    }
    let step = random.pick(&[1, 5, 10, 12, 25, 50]);
    let first = random.between(10, (4000 - step * (count - 1)) / 10) * 10;
    (0..count).map(|place| first + step * place).collect()
}

// So many of the tempi that so many ms divide.
fn some_tempi(random: &mut Random, count: u64, step: u64) -> Vec<u64> {
    distinct(count, || random.between(100 / step, 4000 / step) * step)
}

// So many numbers, as they come, in their order.
fn distinct(count: u64, mut next: impl FnMut() -> u64) -> Vec<u64> {
    let mut numbers = BTreeSet::new();
    while (numbers.len() as u64) < count {
        numbers.insert(next());
    }
    numbers.into_iter().collect()
}

// Taps, takes back and asks, and knows which taps a desk holds.
struct Player {
    random: Random,
    book: Book,
    limit: usize,
    taps: Vec<u64>,
    // How many taps are to be held next. More than there can be: until some are refused.
    goal: usize,
    // At which place of the book the tempo is played.
    tempo: usize,
}

impl Player {
    fn call(&mut self) -> Vec<u8> {
        self.choose_goal();
        let odd = self.random.percent(2);
        if odd {
            return self.unreadable();
        }
        match self.random.below(100) {
            0..8 => self.dressed("cost", ""),
            8..16 => self.dressed("read", ""),
            16..22 => self.tap(),
            22..28 => self.back(),
            _ if self.goal > self.taps.len() => self.tap(),
            _ => self.back(),
        }
    }

    fn choose_goal(&mut self) {
        let held = self.taps.len();
        let refused = held == self.limit && self.random.percent(10);
        if self.taps.last().is_some_and(|&time| time > LATE) {
            self.goal = held.saturating_sub(self.random.between(1, 20) as usize);
        } else if held == self.goal || refused {
            let most = self.random.pick(&[1, 10, 30, 300, 300, 300]);
            // Not much above a small limit, so that such a desk is not always full.
            let most = most.min(2 * self.limit as u64 + 1);
            self.goal = self.random.below(most) as usize;
        }
    }

    fn back(&mut self) -> Vec<u8> {
        self.taps.pop();
        self.dressed("back", "")
    }

    fn tap(&mut self) -> Vec<u8> {
        let time = self.time();
        let later = self.taps.last().is_none_or(|&last| time > last);
        if later && time < TIME_END && self.taps.len() < self.limit {
            self.taps.push(time);
        }
        self.dressed("tap", &time.to_string())
    }

    fn time(&mut self) -> u64 {
        let Some(&last) = self.taps.last() else {
            return match self.random.below(10) {
                0..5 => 0,
                5..9 => self.random.of_bits(20),
                _ => self.random.of_bits(25),
            };
        };
        match self.random.below(1000) {
            0..20 => self.random.between(0, last),
            20..25 => last,
            25..35 => TIME_END + self.random.of_bits(63),
            35..36 => TIME_END - 1,
            36..45 => last + self.random.of_bits(20),
            45..100 => last + self.random.between(1, 12),
            _ => last + self.gap(),
        }
    }

    // A gap as it is played: as one of the kinds at one of the tempi, or just between two of the tempi, or a little off.
    fn gap(&mut self) -> u64 {
        let tempi = self.book.tempi.len();
        match self.random.below(10) {
            0 => self.tempo = self.random.below(tempi as u64) as usize,
            1..3 => self.tempo = (self.tempo + 1).min(tempi - 1),
            3..5 => self.tempo = self.tempo.saturating_sub(1),
            _ => {}
        }
        let tempo = self.book.tempi[self.tempo];
        let other = self.random.pick(&self.book.tempi);
        let (ticks, _) = self.random.pick(&self.book.kinds);
        let exact = match self.random.below(4) {
            0 => ticks * (tempo + other) / 24,
            _ => (ticks * tempo + 6) / 12,
        };
        let off = match self.random.below(4) {
            0..2 => 0,
            2 => self.random.between(0, 20),
            _ => self.random.between(0, exact / 2),
        };
        if self.random.percent(50) {
            exact + off + 1
        } else {
            exact.saturating_sub(off).max(1)
        }
    }

    // A call with blanks, mostly with the fewest; a few zeros in front of a time are allowed.
    fn dressed(&mut self, word: &str, time: &str) -> Vec<u8> {
        if self.random.percent(95) {
            let blank = if time.is_empty() { "" } else { " " };
            return format!("{word}{blank}{time}").into_bytes();
        }
        let front = self.random.pick(&["", " ", "\t", "  \t"]);
        let (blanks, zeros) = match time {
            "" => ("", ""),
            _ => (
                self.random.pick(&[" ", "\t", " \t ", "\r", "\x0c"]),
                self.random.pick(&["", "0", "000000000000"]),
            ),
        };
        let end = self.random.pick(&["", " ", "\r", " \t\r"]);
        format!("{front}{word}{blanks}{zeros}{time}{end}").into_bytes()
    }

    fn unreadable(&mut self) -> Vec<u8> {
        let lines: [&[u8]; 16] = [
            b"",
            b" ",
            b"\r",
            b"tap",
            b"tap ",
            b"tap x",
            b"tap 5x",
            b"tap -5",
            b"tap +5",
            b"tap 1 2",
            b"taps 5",
            b"Tap 5",
            b"back 1",
            b"readcost",
            b"# cost",
            b"\xff\xfe\x00",
        ];
        self.random.pick(&lines).to_vec()
    }
}

// So many calls, and two more that ask what the taps that are held then cost and how they are read.
fn calls_of(player: &mut Player, count: u64) -> Vec<u8> {
    let mut calls = Vec::new();
    for _ in 0..count {
        calls.extend(player.call());
        calls.push(b'\n');
    }
    calls.extend(b"cost\nread\n");
    // The last line needs no end.
    if player.random.percent(50) {
        calls.pop();
    }
    calls
}

// What `price` reads: taps, and any notes of the book for their gaps.
fn price_of(random: &mut Random, book: &Book, taps: &[u64]) -> String {
    let times: Vec<_> = taps.iter().map(u64::to_string).collect();
    let notes: Vec<_> = taps.windows(2).map(|_| note(random, book)).collect();
    let reading = if notes.is_empty() {
        "none".into()
    } else {
        notes.join(" ")
    };
    format!("{}\n{reading}\n", times.join(" "))
}

fn note(random: &mut Random, book: &Book) -> String {
    let (ticks, _) = random.pick(&book.kinds);
    let tempo = random.pick(&book.tempi);
    format!("{ticks}@{tempo}")
}

fn run() -> Result<(), Box<dyn Error>> {
    let args: Vec<String> = env::args().skip(1).collect();
    let [
        seed,
        kinds,
        tempi,
        limit,
        calls,
        book_file,
        calls_file,
        price_file,
    ] = args.as_slice()
    else {
        return Err(USAGE.into());
    };
    let seed = seed.parse()?;
    let calls = calls.parse()?;
    let mut random = Random(seed);
    let book = Book::random(&mut random, kinds.parse()?, tempi.parse()?);
    // How the book is written has random numbers of its own, so that the calls don't hang on it.
    fs::write(book_file, book.text(Random(!seed)))?;
    let mut player = Player {
        random,
        book,
        limit: limit.parse()?,
        taps: Vec::with_capacity(MOST_TAPS),
        goal: if calls < 600 { 20 } else { MOST_TAPS + 1 },
        tempo: 0,
    };
    fs::write(calls_file, calls_of(&mut player, calls))?;
    let Player {
        mut random,
        book,
        taps,
        ..
    } = player;
    fs::write(price_file, price_of(&mut random, &book, &taps))?;
    Ok(())
}

fn main() -> ExitCode {
    let Err(error) = run() else {
        return ExitCode::SUCCESS;
    };
    eprintln!("random: {error}");
    ExitCode::FAILURE
}
