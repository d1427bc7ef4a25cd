// The rhythm desk once more, in plain Rust: written from the rules in `docs/` and not from the proved code, so that the
// answers of the two, and what they take, can be compared.

use std::error::Error;
use std::fmt::{self, Write as _};
use std::fs::File;
use std::io::{self, BufRead, BufReader, Write as _};
use std::process::ExitCode;

use book::Book;
use options::{MOST_TAPS, Options};

mod book;
mod options;
mod text;

const USAGE: &str = "usage: desk [--book FILE] [--limit N] [CALLS]";

const TIME_END: u32 = 1 << 24;

// More than any reading costs: what a row says where there is no reading.
const TOO_MUCH: u64 = (1 << 63) - 1;

// Nothing overflows: what a gap costs by itself, and what a change of tempo costs, are each below 2^29.
fn sum(cost: u64, more: u32) -> u64 {
    (cost + u64::from(more)).min(TOO_MUCH)
}

fn least(costs: &[u64]) -> u64 {
    costs.iter().copied().min().unwrap_or(TOO_MUCH)
}

impl Book {
    // For each tempo the least that a gap costs, as its cheapest kind.
    fn fill_local_costs(&self, gap: u32, costs: &mut [u32]) {
        costs.fill(u32::MAX);
        for kind in &self.kinds {
            for (cost, &tempo) in costs.iter_mut().zip(&self.tempi) {
                *cost = kind.local_cost(gap, tempo).min(*cost);
            }
        }
    }

    // For each tempo what a gap is to cost by itself, so that it costs just `cost` with the change from the state before
    // and what follows; more than any gap costs, where that is less than nothing.
    fn fill_wanted(&self, state: usize, rests: &[u64], cost: u64, wanted: &mut [u32]) {
        // Without a tempo before, a change costs nothing.
        let (before, change) = match state {
            0 => (0, 0),
            _ => (self.tempi[state - 1], self.change),
        };
        for ((wanted, &tempo), &rest) in wanted.iter_mut().zip(&self.tempi).zip(rests) {
            let others = rest + u64::from(change * tempo.abs_diff(before));
            let left = cost.checked_sub(others);
            *wanted = left
                .and_then(|left| left.try_into().ok())
                .unwrap_or(u32::MAX);
        }
    }

    // Lowers each cost to the least over all tempi of the cost there and the change between the two. Tempi rise, so that
    // a change over several tempi costs what its parts between neighbours cost, and it is enough to pass on what the
    // neighbour has: once upward and once downward.
    fn spread(&self, costs: &mut [u64]) {
        let mut least = TOO_MUCH;
        let mut below = 0;
        for (cost, &tempo) in costs.iter_mut().zip(&self.tempi) {
            least = (*cost).min(least + u64::from(self.change * (tempo - below)));
            below = tempo;
            *cost = least;
        }
        let mut above = below;
        for (cost, &tempo) in costs.iter_mut().zip(&self.tempi).rev() {
            least = (*cost).min(least + u64::from(self.change * (above - tempo)));
            above = tempo;
            *cost = least;
        }
    }
}

// Rows of costs, as wide as each other, in memory that is allocated once.
struct Rows<T> {
    width: usize,
    costs: Box<[T]>,
}

impl<T: Copy + Default> Rows<T> {
    fn new(count: usize, width: usize) -> Rows<T> {
        let costs = vec![T::default(); count * width].into_boxed_slice();
        Rows { width, costs }
    }

    fn row(&self, place: usize) -> &[T] {
        &self.costs[place * self.width..][..self.width]
    }

    fn row_mut(&mut self, place: usize) -> &mut [T] {
        &mut self.costs[place * self.width..][..self.width]
    }

    // The row at this place and the one after it.
    fn pair_mut(&mut self, place: usize) -> (&mut [T], &mut [T]) {
        self.costs[place * self.width..][..2 * self.width].split_at_mut(self.width)
    }
}

// One gap's part of a reading: a kind and a tempo, by their places in the book.
#[derive(Clone, Copy)]
struct Read {
    kind: usize,
    tempo: usize,
}

// Why a tap, or taking one back, is refused, by the number that is told; the place is 0.
#[derive(Clone, Copy)]
enum Refusal {
    TooLate = 2,
    NotLater = 4,
    NoTap = 5,
    TooManyTaps = 6,
}

// A prefix or suffix row has a cost for each state: state 0 has no tempo before, state 1 + t the tempo t. Rows of local
// costs have a cost for each tempo.
struct Desk {
    book: Book,
    // How many taps it may hold.
    limit: usize,
    taps: Vec<u32>,
    // For each tap but the first the local costs of the gap that it ends, in the row of the tap before.
    local_costs: Rows<u32>,
    // For each tap what the gaps up to it cost at least, by the state that they end in.
    prefix_rows: Rows<u64>,
    // For each tap what the gaps from it on cost at least, by the state that they start in: right only while a reading
    // is looked for.
    suffix_rows: Rows<u64>,
    // For each tempo what a gap is to cost, while its part of the reading is looked for.
    wanted: Box<[u32]>,
    reading: Vec<Read>,
}

impl Desk {
    fn new(book: Book, limit: usize) -> Desk {
        let states = book.tempi.len() + 1;
        let mut prefix_rows = Rows::new(MOST_TAPS, states);
        prefix_rows.row_mut(0)[1..].fill(TOO_MUCH);
        Desk {
            taps: Vec::with_capacity(MOST_TAPS),
            local_costs: Rows::new(MOST_TAPS - 1, book.tempi.len()),
            prefix_rows,
            suffix_rows: Rows::new(MOST_TAPS, states),
            wanted: vec![0; book.tempi.len()].into_boxed_slice(),
            reading: Vec::with_capacity(MOST_TAPS - 1),
            limit,
            book,
        }
    }

    // The tap's number.
    fn tap(&mut self, time: u32) -> Result<usize, Refusal> {
        if time >= TIME_END {
            return Err(Refusal::TooLate);
        }
        let last = self.taps.last().copied();
        if last.is_some_and(|last| time <= last) {
            return Err(Refusal::NotLater);
        }
        let number = self.taps.len();
        if number == self.limit {
            return Err(Refusal::TooManyTaps);
        }
        if let Some(last) = last {
            self.add_prefix_row(number - 1, time - last);
        }
        self.taps.push(time);
        Ok(number)
    }

    // How many taps are left. Their rows are as they were.
    fn back(&mut self) -> Result<usize, Refusal> {
        self.taps.pop().ok_or(Refusal::NoTap)?;
        Ok(self.taps.len())
    }

    // What the best reading costs.
    fn cost(&self) -> u64 {
        let Some(last) = self.taps.len().checked_sub(1) else {
            return 0;
        };
        least(self.prefix_rows.row(last))
    }

    // Leaves the first best reading.
    fn read(&mut self) {
        self.fill_suffix_rows();
        self.walk();
    }

    fn add_prefix_row(&mut self, place: usize, gap: u32) {
        let local_costs = self.local_costs.row_mut(place);
        self.book.fill_local_costs(gap, local_costs);
        let (before, after) = self.prefix_rows.pair_mut(place);
        after[0] = TOO_MUCH;
        let by_tempo = &mut after[1..];
        by_tempo.copy_from_slice(&before[1..]);
        self.book.spread(by_tempo);
        for (cost, &local_cost) in by_tempo.iter_mut().zip(&*local_costs) {
            *cost = sum(before[0].min(*cost), local_cost);
        }
    }

    fn fill_suffix_rows(&mut self) {
        let gaps = self.taps.len().saturating_sub(1);
        self.suffix_rows.row_mut(gaps).fill(0);
        for place in (0..gaps).rev() {
            let local_costs = self.local_costs.row(place);
            let (before, after) = self.suffix_rows.pair_mut(place);
            let costs = before[1..].iter_mut().zip(&after[1..]);
            for ((cost, &rest), &local_cost) in costs.zip(local_costs) {
                *cost = sum(rest, local_cost);
            }
            before[0] = least(&before[1..]);
            self.book.spread(&mut before[1..]);
        }
    }

    // From the first gap on, the first kind, and with it the first tempo, with which no more is spent than the suffix
    // rows say.
    fn walk(&mut self) {
        let Book { kinds, tempi, .. } = &self.book;
        self.reading.clear();
        let mut state = 0;
        'gaps: for (place, taps) in self.taps.windows(2).enumerate() {
            let gap = taps[1] - taps[0];
            let cost = self.suffix_rows.row(place)[state];
            let rests = &self.suffix_rows.row(place + 1)[1..];
            self.book.fill_wanted(state, rests, cost, &mut self.wanted);
            for (kind_place, kind) in kinds.iter().enumerate() {
                for (tempo_place, (&tempo, &wanted)) in tempi.iter().zip(&self.wanted).enumerate() {
                    if kind.local_cost(gap, tempo) == wanted {
                        self.reading.push(Read {
                            kind: kind_place,
                            tempo: tempo_place,
                        });
                        state = tempo_place + 1;
                        continue 'gaps;
                    }
                }
            }
            unreachable!("a row's cost comes from a kind and a tempo");
        }
    }
}

enum Call {
    Tap(u32),
    Back,
    Cost,
    Read,
}

impl Call {
    fn parse(line: &[u8]) -> Option<Call> {
        let mut tokens = text::tokens(line);
        let call = match tokens.next()? {
            b"tap" => Call::Tap(text::number(tokens.next()?)?),
            b"back" => Call::Back,
            b"cost" => Call::Cost,
            b"read" => Call::Read,
            _ => return None,
        };
        tokens.next().is_none().then_some(call)
    }
}

fn write_answer(desk: &mut Desk, call: Call, text: &mut String) -> fmt::Result {
    let number = match call {
        Call::Tap(time) => desk.tap(time),
        Call::Back => desk.back(),
        Call::Cost => return writeln!(text, "{}", desk.cost()),
        Call::Read => return write_reading(desk, text),
    };
    match number {
        Ok(number) => writeln!(text, "{number}"),
        Err(refusal) => writeln!(text, "refused {} at 0", refusal as u8),
    }
}

fn write_reading(desk: &mut Desk, text: &mut String) -> fmt::Result {
    desk.read();
    if desk.reading.is_empty() {
        return writeln!(text, "none");
    }
    for (place, read) in desk.reading.iter().enumerate() {
        let blank = if place == 0 { "" } else { " " };
        let ticks = desk.book.kinds[read.kind].ticks;
        let tempo = desk.book.tempi[read.tempo];
        write!(text, "{blank}{ticks}@{tempo}")?;
    }
    writeln!(text)
}

// Each answer is out, in one piece, before the next line is waited for.
fn answer_lines(mut desk: Desk, mut lines: impl BufRead) -> Result<(), Box<dyn Error>> {
    let mut answers = io::stdout().lock();
    let mut line = Vec::new();
    let mut text = String::new();
    for number in 0u64.. {
        line.clear();
        if lines.read_until(b'\n', &mut line)? == 0 {
            break;
        }
        text.clear();
        match Call::parse(&line) {
            Some(call) => write_answer(&mut desk, call, &mut text)?,
            None => writeln!(text, "refused 1 at {number}")?,
        }
        answers.write_all(text.as_bytes())?;
    }
    Ok(())
}

fn run() -> Result<(), Box<dyn Error>> {
    let Some(options) = Options::read(true)? else {
        return Ok(writeln!(io::stdout(), "{USAGE}")?);
    };
    let desk = Desk::new(options.book, options.limit);
    let Some(path) = options.file else {
        return answer_lines(desk, io::stdin().lock());
    };
    let file = File::open(&path).map_err(|error| format!("{}: {error}", path.display()))?;
    answer_lines(desk, BufReader::new(file))
}

fn main() -> ExitCode {
    let Err(error) = run() else {
        return ExitCode::SUCCESS;
    };
    eprintln!("desk: {error}");
    ExitCode::FAILURE
}
