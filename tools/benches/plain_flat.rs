//! The jobs of `benches flat` in plain Rust, on the same data, to measure against. A column is its type, and windows on shared values and on
//! shared marks; a builder is its values and the bytes of its marks.
//!
//!     plain_flat JOB SIZE     the job, the least nanoseconds of its rounds, and the checksum
//!     plain_flat              each job at a small size: its name and the checksum alone

use std::hint::black_box;
use std::rc::Rc;
use std::time::Instant;
use std::{env, process, str};

const ROUNDS: usize = 7;
const SMALL: usize = 10_000;
const CUT: usize = 16;
const COLUMN: usize = 1000;
const WORDS: [&str; 8] = ["", "a", "north", "Zürich", "日本", "quick", "length", "columns"];
const JOBS: [&str; 8] = [
    "push_numbers",
    "from_iter",
    "sum",
    "cut",
    "copy",
    "push_texts",
    "from_slice",
    "try_new",
];

fn mixed(place: u64) -> u64 {
    let number = place.wrapping_mul(0x9e37_79b9_7f4a_7c15);
    let number = (number ^ (number >> 30)).wrapping_mul(0xbf58_476d_1ce4_e5b9);
    let number = (number ^ (number >> 27)).wrapping_mul(0x94d0_49bb_1331_11eb);
    number ^ (number >> 31)
}

fn slot_at(place: u64) -> Option<i32> {
    let number = mixed(place);
    (number % 8 > 0).then_some((number % 0x1_0000) as i32)
}

fn slots(count: usize) -> Vec<Option<i32>> {
    (0..count as u64).map(slot_at).collect()
}

fn texts(count: usize) -> Vec<&'static str> {
    (0..count as u64).map(|k| WORDS[(mixed(k) % 8) as usize]).collect()
}

/// Values with a bit for each, which is set where the value is not null.
#[derive(Clone, Default)]
struct Numbers {
    values: Vec<i32>,
    marks: Vec<u8>,
}

impl Numbers {
    fn push(&mut self, slot: Option<i32>) {
        let place = self.values.len() % 8;
        if place == 0 {
            self.marks.push(0);
        }
        if let Some(last) = self.marks.last_mut() {
            *last |= u8::from(slot.is_some()) << place;
        }
        self.values.push(slot.unwrap_or(0));
    }

    fn nulls(&self) -> usize {
        self.values.len() - self.marks.iter().map(|byte| byte.count_ones() as usize).sum::<usize>()
    }

    fn checksum(&self) -> u64 {
        numbers_checksum(&self.values).wrapping_add(bytes_checksum(&self.marks)).wrapping_add(self.nulls() as u64)
    }
}

fn gathered(slots: impl Iterator<Item = Option<i32>>) -> Numbers {
    let mut numbers = Numbers::default();
    slots.for_each(|slot| numbers.push(slot));
    numbers
}

fn sum(numbers: &Numbers) -> u64 {
    let marks = (0..numbers.values.len()).map(|i| numbers.marks[i / 8] >> (i % 8) & 1 == 1);
    let valid = numbers.values.iter().zip(marks).filter(|(_, mark)| *mark);
    valid.fold(0, |sum: u64, (number, _)| sum.wrapping_add(u64::from(number.unsigned_abs())))
}

/// The type of a column, which a copy of the column copies.
#[derive(Clone)]
enum DataType {
    Int32,
    #[allow(dead_code)]
    Timestamp(Option<String>),
    #[allow(dead_code)]
    List(Box<DataType>),
}

/// A window on shared marks, and how many of them say null.
#[derive(Clone)]
struct Marks {
    bytes: Rc<Vec<u8>>,
    offset: usize,
    nulls: usize,
}

/// A type, and windows on shared values and on shared marks.
#[derive(Clone)]
struct Column {
    #[allow(dead_code)]
    data_type: DataType,
    values: Rc<Vec<i32>>,
    offset: usize,
    len: usize,
    marks: Option<Marks>,
}

impl Column {
    fn of(numbers: Numbers) -> Column {
        let nulls = numbers.nulls();
        Column {
            data_type: DataType::Int32,
            offset: 0,
            len: numbers.values.len(),
            values: Rc::new(numbers.values),
            marks: Some(Marks { bytes: Rc::new(numbers.marks), offset: 0, nulls }),
        }
    }

    fn cut(mut self, offset: usize, len: usize) -> Column {
        assert!(offset + len <= self.len && self.offset + offset + len <= self.values.len());
        self.offset += offset;
        self.len = len;
        if let Some(marks) = &mut self.marks {
            marks.offset += offset;
            marks.nulls = unset(&marks.bytes, marks.offset, len);
        }
        self
    }

    fn nulls(&self) -> usize {
        self.marks.as_ref().map_or(0, |marks| marks.nulls)
    }
}

/// How many of some bits are not set: the bits of whole bytes, without those that stand before and behind.
fn unset(bytes: &[u8], offset: usize, len: usize) -> usize {
    let end = offset + len;
    let whole = &bytes[offset / 8..end.div_ceil(8)];
    let (Some(first), Some(last)) = (whole.first(), whole.last()) else {
        return 0;
    };
    let set: usize = whole.iter().map(|byte| byte.count_ones() as usize).sum();
    let before = first & !(u8::MAX << (offset % 8));
    let after = if end % 8 == 0 { 0 } else { last >> (end % 8) };
    len - (set - before.count_ones() as usize - after.count_ones() as usize)
}

fn cuts(column: &Column, count: usize) -> u64 {
    let places = column.len - CUT + 1;
    (0..count).fold(0, |nulls: u64, k| nulls.wrapping_add(black_box(column.clone().cut(k % places, CUT)).nulls() as u64))
}

/// Bytes of texts, and where each begins and ends.
struct Texts {
    bytes: Vec<u8>,
    offsets: Vec<i32>,
}

impl Texts {
    fn push(&mut self, text: &str) -> Option<()> {
        let end = self.bytes.len().checked_add(text.len())?;
        self.offsets.push(i32::try_from(end).ok()?);
        self.bytes.extend_from_slice(text.as_bytes());
        Some(())
    }

    fn checksum(&self) -> u64 {
        bytes_checksum(&self.bytes).wrapping_add(numbers_checksum(&self.offsets))
    }
}

fn joined<'a>(texts: impl Iterator<Item = &'a str>) -> Option<Texts> {
    let mut joined = Texts { bytes: Vec::new(), offsets: vec![0] };
    for text in texts {
        joined.push(text)?;
    }
    Some(joined)
}

fn checksum(numbers: impl Iterator<Item = u64>) -> u64 {
    numbers.fold(0, |sum: u64, number| sum.wrapping_mul(31).wrapping_add(number))
}

fn numbers_checksum(numbers: &[i32]) -> u64 {
    checksum(numbers.iter().map(|number| u64::from(number.unsigned_abs())))
}

fn bytes_checksum(bytes: &[u8]) -> u64 {
    checksum(bytes.iter().map(|byte| u64::from(*byte)))
}

fn timed<T>(rounds: usize, job: impl Fn() -> T, checksum: impl Fn(&T) -> u64) -> (u128, u64) {
    let (mut least, mut last) = (u128::MAX, 0);
    for _ in 0..rounds {
        let start = Instant::now();
        let made = black_box(job());
        least = least.min(start.elapsed().as_nanos());
        last = checksum(&made);
    }
    (least, last)
}

fn run(job: &str, size: usize, rounds: usize) -> (u128, u64) {
    match job {
        "push_numbers" => {
            let slots = slots(size);
            timed(rounds, || gathered(black_box(&slots).iter().copied()), Numbers::checksum)
        }
        "from_iter" => {
            let slots = slots(size);
            let sum = |made: &Numbers| numbers_checksum(&made.values).wrapping_add(made.nulls() as u64);
            timed(rounds, || gathered(black_box(&slots).iter().copied()), sum)
        }
        "sum" => {
            let numbers = gathered(slots(size).into_iter());
            timed(rounds, || sum(black_box(&numbers)), |sum| *sum)
        }
        "cut" => {
            let column = Column::of(gathered(slots(COLUMN).into_iter()));
            timed(rounds, || cuts(black_box(&column), size), |nulls| *nulls)
        }
        "copy" => {
            let numbers = gathered(slots(size).into_iter());
            timed(rounds, || black_box(&numbers).clone(), Numbers::checksum)
        }
        "push_texts" | "from_slice" => {
            let texts = texts(size);
            timed(rounds, || joined(black_box(&texts).iter().copied()), |made| made.as_ref().map_or(0, Texts::checksum))
        }
        "try_new" => {
            let bytes = texts(size).concat().into_bytes();
            timed(rounds, || str::from_utf8(black_box(&bytes)).is_ok(), |is_text| if *is_text { size as u64 } else { 0 })
        }
        _ => {
            eprintln!("a name of no job");
            process::exit(1)
        }
    }
}

fn main() {
    let words: Vec<String> = env::args().skip(1).collect();
    match words.as_slice() {
        [] => JOBS.iter().for_each(|job| println!("{job} {}", run(job, SMALL, 1).1)),
        [job, size] => {
            let (nanoseconds, checksum) = run(job, size.parse().unwrap(), ROUNDS);
            println!("{job} {nanoseconds} {checksum}")
        }
        _ => process::exit(1),
    }
}
