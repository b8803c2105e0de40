//! The jobs of `benches nested` in plain Rust, on the same data, to measure against. A column is its type, windows on shared values and
//! marks, and the columns below it.
//!
//!     plain_nested JOB SIZE     the job, the least nanoseconds of its rounds, and the checksum
//!     plain_nested              each job at a small size: its name and the checksum alone

use std::hint::black_box;
use std::rc::Rc;
use std::time::Instant;
use std::{env, process};

const ROUNDS: usize = 7;
const SMALL: usize = 10_000;
const COLUMNS: usize = 100;
const WORDS: [&str; 8] = ["", "a", "north", "Zürich", "日本", "quick", "length", "columns"];
const JOBS: [&str; 6] = ["cut", "numbers", "slots", "texts", "lists", "dictionaries"];

fn mixed(place: u64) -> u64 {
    let number = place.wrapping_mul(0x9e37_79b9_7f4a_7c15);
    let number = (number ^ (number >> 30)).wrapping_mul(0xbf58_476d_1ce4_e5b9);
    let number = (number ^ (number >> 27)).wrapping_mul(0x94d0_49bb_1331_11eb);
    number ^ (number >> 31)
}

/// A window on shared values.
#[derive(Clone)]
struct Window<T> {
    values: Rc<Vec<T>>,
    offset: usize,
    len: usize,
}

impl<T> Window<T> {
    fn of(values: Vec<T>) -> Window<T> {
        Window { offset: 0, len: values.len(), values: Rc::new(values) }
    }

    fn as_slice(&self) -> &[T] {
        &self.values[self.offset..self.offset + self.len]
    }

    fn cut(&mut self, offset: usize, len: usize) {
        assert!(offset + len <= self.len);
        self.offset += offset;
        self.len = len;
    }
}

/// A window on shared bits, and how many of them are not set.
#[derive(Clone)]
struct Marks {
    bytes: Rc<Vec<u8>>,
    offset: usize,
    len: usize,
    unset: usize,
}

impl Marks {
    fn of(marks: &[bool]) -> Marks {
        let mut bytes = vec![0; marks.len().div_ceil(8)];
        for (i, mark) in marks.iter().enumerate() {
            bytes[i / 8] |= u8::from(*mark) << (i % 8);
        }
        let unset = marks.iter().filter(|mark| !**mark).count();
        Marks { bytes: Rc::new(bytes), offset: 0, len: marks.len(), unset }
    }

    fn get(&self, i: usize) -> bool {
        let place = self.offset + i;
        self.bytes[place / 8] >> (place % 8) & 1 == 1
    }

    /// It counts the bits that stay, or those that go, whichever are fewer.
    fn cut(&mut self, offset: usize, len: usize) {
        assert!(offset + len <= self.len);
        let end = offset + len;
        if len < self.len / 2 {
            self.unset = unset(&self.bytes, self.offset + offset, len);
        } else {
            self.unset -= unset(&self.bytes, self.offset, offset) + unset(&self.bytes, self.offset + end, self.len - end);
        }
        self.offset += offset;
        self.len = len;
    }
}

/// How many of some bits are not set: the bits of whole bytes, without those that stand before and behind.
fn unset(bytes: &[u8], offset: usize, len: usize) -> usize {
    if len == 0 {
        return 0;
    }
    let end = offset + len;
    let whole = &bytes[offset / 8..end.div_ceil(8)];
    let set: usize = whole.iter().map(|byte| byte.count_ones() as usize).sum();
    let before = whole[0] & !(u8::MAX << (offset % 8));
    let after = if end % 8 == 0 { 0 } else { whole[whole.len() - 1] >> (end % 8) };
    len - (set - before.count_ones() as usize - after.count_ones() as usize)
}

#[derive(Clone, PartialEq)]
enum DataType {
    Int32,
    Utf8,
    List(Box<DataType>),
    Dictionary(Box<DataType>),
    Struct(Vec<(String, DataType)>),
}

#[derive(Clone)]
enum Values {
    Numbers(Window<i32>),
    Texts(Window<i32>, Window<u8>),
    Lists(Window<i32>, Box<Column>),
    Dictionary(Window<i32>, Box<Column>),
    Struct(Vec<Column>, usize),
}

#[derive(Clone)]
struct Column {
    data_type: DataType,
    marks: Option<Marks>,
    values: Values,
}

impl Column {
    fn len(&self) -> usize {
        match &self.values {
            Values::Numbers(values) => values.len,
            Values::Texts(offsets, _) | Values::Lists(offsets, _) => offsets.len - 1,
            Values::Dictionary(keys, _) => keys.len,
            Values::Struct(_, len) => *len,
        }
    }

    fn nulls(&self) -> usize {
        self.marks.as_ref().map_or(0, |marks| marks.unset)
    }

    fn is_valid(&self, i: usize) -> bool {
        self.marks.as_ref().is_none_or(|marks| marks.get(i))
    }

    fn cut(&mut self, offset: usize, len: usize) {
        if let Some(marks) = &mut self.marks {
            marks.cut(offset, len);
        }
        match &mut self.values {
            Values::Numbers(values) => values.cut(offset, len),
            Values::Texts(offsets, _) | Values::Lists(offsets, _) => offsets.cut(offset, len + 1),
            Values::Dictionary(keys, _) => keys.cut(offset, len),
            Values::Struct(columns, rows) => {
                columns.iter_mut().for_each(|column| column.cut(offset, len));
                *rows = len;
            }
        }
    }
}

fn equal(left: &Column, right: &Column) -> bool {
    left.data_type == right.data_type && left.len() == right.len() && same_range(left, 0, right, 0, left.len())
}

/// Whether so many slots of a column from a place on are those of another from a place on.
fn same_range(left: &Column, i: usize, right: &Column, j: usize, count: usize) -> bool {
    match (&left.values, &right.values) {
        (Values::Numbers(values), Values::Numbers(others)) => {
            let (values, others) = (&values.as_slice()[i..i + count], &others.as_slice()[j..j + count]);
            if left.marks.is_none() && right.marks.is_none() {
                return values == others;
            }
            same_slots(left, i, right, j, count, |k| values[k] == others[k])
        }
        (Values::Texts(offsets, bytes), Values::Texts(others, other_bytes)) => {
            let (offsets, others) = (&offsets.as_slice()[i..=i + count], &others.as_slice()[j..=j + count]);
            let (bytes, other_bytes) = (bytes.as_slice(), other_bytes.as_slice());
            let text = |k: usize| &bytes[offsets[k] as usize..offsets[k + 1] as usize];
            let other = |k: usize| &other_bytes[others[k] as usize..others[k + 1] as usize];
            same_slots(left, i, right, j, count, |k| text(k) == other(k))
        }
        (Values::Lists(offsets, items), Values::Lists(others, other_items)) => {
            let (offsets, others) = (&offsets.as_slice()[i..=i + count], &others.as_slice()[j..=j + count]);
            same_slots(left, i, right, j, count, |k| {
                let (first, end) = (offsets[k] as usize, offsets[k + 1] as usize);
                let (other, other_end) = (others[k] as usize, others[k + 1] as usize);
                end - first == other_end - other && same_range(items, first, other_items, other, end - first)
            })
        }
        (Values::Dictionary(keys, values), Values::Dictionary(others, other_values)) => {
            let (keys, others) = (&keys.as_slice()[i..i + count], &others.as_slice()[j..j + count]);
            same_slots(left, i, right, j, count, |k| same_range(values, keys[k] as usize, other_values, others[k] as usize, 1))
        }
        (Values::Struct(columns, _), Values::Struct(others, _)) => same_slots(left, i, right, j, count, |k| {
            columns.iter().zip(others).all(|(column, other)| same_range(column, i + k, other, j + k, 1))
        }),
        _ => false,
    }
}

/// Whether slots are null at the same places, and the same where they are not.
fn same_slots(left: &Column, i: usize, right: &Column, j: usize, count: usize, same: impl Fn(usize) -> bool) -> bool {
    (0..count).all(|k| match (left.is_valid(i + k), right.is_valid(j + k)) {
        (true, true) => same(k),
        (is_valid, is_other) => is_valid == is_other,
    })
}

fn number_at(place: u64) -> i32 {
    (mixed(place) % 0x1_0000) as i32
}

fn numbers(values: Vec<i32>, marks: Option<Marks>) -> Column {
    Column { data_type: DataType::Int32, marks, values: Values::Numbers(Window::of(values)) }
}

fn slots(count: usize) -> Column {
    let marks: Vec<bool> = (0..count as u64).map(|k| mixed(k) % 8 > 0).collect();
    let values = (0..count as u64).map(|k| if mixed(k) % 8 > 0 { number_at(k) } else { 0 }).collect();
    numbers(values, Some(Marks::of(&marks)))
}

fn texts<'a>(texts: impl Iterator<Item = &'a str>) -> Column {
    let (mut offsets, mut bytes) = (vec![0], Vec::new());
    for text in texts {
        bytes.extend_from_slice(text.as_bytes());
        offsets.push(bytes.len() as i32);
    }
    Column { data_type: DataType::Utf8, marks: None, values: Values::Texts(Window::of(offsets), Window::of(bytes)) }
}

fn words(count: usize) -> Column {
    texts((0..count as u64).map(|k| WORDS[(mixed(k) % 8) as usize]))
}

fn lists(count: usize, unseen: usize) -> Column {
    let (mut offsets, mut items, mut marks) = (vec![0], Vec::new(), Vec::new());
    for number in (0..count as u64).map(mixed) {
        let is_null = number % 8 == 0;
        let len = if is_null { unseen } else { (number / 8 % 4) as usize };
        items.resize(items.len() + len, (number % 0x1_0000) as i32);
        offsets.push(items.len() as i32);
        marks.push(!is_null);
    }
    let items = Box::new(numbers(items, None));
    let data_type = DataType::List(Box::new(DataType::Int32));
    Column { data_type, marks: Some(Marks::of(&marks)), values: Values::Lists(Window::of(offsets), items) }
}

fn dictionaries(count: usize, is_backwards: bool) -> Column {
    let places = (0..count as u64).map(|k| (mixed(k) % 8) as i32);
    let keys = places.map(|place| if is_backwards { 7 - place } else { place }).collect();
    let values = if is_backwards { texts(WORDS.into_iter().rev()) } else { texts(WORDS.into_iter()) };
    let data_type = DataType::Dictionary(Box::new(DataType::Utf8));
    Column { data_type, marks: None, values: Values::Dictionary(Window::of(keys), Box::new(values)) }
}

/// A table of columns that share their memory, cut so many times.
fn cuts(number: &Column, text: &Column, count: usize) -> Column {
    let columns: Vec<Column> = (0..COLUMNS).map(|k| if k % 2 == 0 { number.clone() } else { text.clone() }).collect();
    let fields = columns.iter().map(|column| ("column".to_string(), column.data_type.clone())).collect();
    let values = Values::Struct(columns, number.len());
    let mut table = Column { data_type: DataType::Struct(fields), marks: None, values };
    for _ in 0..count {
        let rows = table.len();
        if rows > 0 {
            table.cut(1, rows - 1);
        }
    }
    table
}

fn table_checksum(table: &Column) -> u64 {
    let Values::Struct(columns, rows) = &table.values else {
        return 0;
    };
    let nulls = columns.iter().map(|column| column.nulls() as u64);
    nulls.fold(*rows as u64, |sum, nulls| sum.wrapping_mul(31).wrapping_add(nulls))
}

fn timed<T>(rounds: usize, job: impl Fn() -> T, checksum: impl Fn(&T) -> u64) -> (u128, u64) {
    let (mut least, mut last) = (u128::MAX, 0);
    for _ in 0..rounds {
        let start = Instant::now();
        let made = black_box(job());
        least = least.min(start.elapsed().as_nanos());
        last = checksum(&made);
    }
    (least, last)
}

fn run(job: &str, size: usize, rounds: usize) -> (u128, u64) {
    let (left, right) = match job {
        "cut" => {
            let (number, text) = (slots(2 * size), words(2 * size));
            return timed(rounds, || cuts(black_box(&number), black_box(&text), size), table_checksum);
        }
        "numbers" => {
            let values: Vec<i32> = (0..size as u64).map(number_at).collect();
            (numbers(values.clone(), None), numbers(values, None))
        }
        "slots" => (slots(size), slots(size)),
        "texts" => (words(size), words(size)),
        "lists" => (lists(size, 0), lists(size, 3)),
        "dictionaries" => (dictionaries(size, false), dictionaries(size, true)),
        _ => {
            eprintln!("a name of no job");
            process::exit(1)
        }
    };
    timed(rounds, || equal(black_box(&left), black_box(&right)), |is_equal| u64::from(*is_equal))
}

fn main() {
    let words: Vec<String> = env::args().skip(1).collect();
    match words.as_slice() {
        [] => JOBS.iter().for_each(|job| println!("{job} {}", run(job, SMALL, 1).1)),
        [job, size] => {
            let (nanoseconds, checksum) = run(job, size.parse().unwrap(), ROUNDS);
            println!("{job} {nanoseconds} {checksum}")
        }
        _ => process::exit(1),
    }
}
