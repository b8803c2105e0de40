//! The jobs of `benches builders` in plain Rust, on the same data, to measure against: columns that grow cell by cell, the values of keys in a
//! `HashMap`.
//!
//!     plain_builders JOB SIZE     the job, the least nanoseconds of its rounds, and the checksum
//!     plain_builders              each job at a small size: its name and the checksum alone

use std::collections::HashMap;
use std::hint::black_box;
use std::time::Instant;
use std::{env, process};

const ROUNDS: usize = 7;
const SMALL: usize = 10_000;
const ROWS: usize = 4096;
const TEXTS: u64 = 1000;
const WORDS: [&str; 8] = ["", "a", "north", "Zürich", "日本", "quick", "length", "columns"];
const JOBS: [&str; 3] = ["cells", "copied", "typed"];

fn mixed(place: u64) -> u64 {
    let number = place.wrapping_mul(0x9e37_79b9_7f4a_7c15);
    let number = (number ^ (number >> 30)).wrapping_mul(0xbf58_476d_1ce4_e5b9);
    let number = (number ^ (number >> 27)).wrapping_mul(0x94d0_49bb_1331_11eb);
    number ^ (number >> 31)
}

fn number_at(place: u64) -> i32 {
    (mixed(place) % 0x1_0000) as i32
}

// ---- cells

enum Cell {
    Null,
    Int64(i64),
    Int32(i32),
    Text(String),
    List(Vec<Cell>),
}

/// A row of values.
struct Row {
    number: Option<i64>,
    word: &'static str,
    key: String,
    items: Vec<i32>,
}

/// The row at a place.
fn row_at(place: u64) -> Row {
    let number = mixed(place);
    Row {
        number: if number % 8 == 0 { None } else { Some(i64::from(number_at(number))) },
        word: WORDS[(number % 8) as usize],
        key: (number / 8 % TEXTS).to_string(),
        items: (0..number / 64 % 4).map(|k| number_at(number.wrapping_add(k))).collect(),
    }
}

/// The four cells of the row at a place.
fn cells_at(place: u64) -> Vec<Cell> {
    let row = row_at(place);
    let first = row.number.map_or(Cell::Null, Cell::Int64);
    let items = row.items.into_iter().map(Cell::Int32).collect();
    vec![first, Cell::Text(row.word.to_string()), Cell::Text(row.key), Cell::List(items)]
}

// ---- columns

/// The validity of slots, of which nothing is kept before the first null.
#[derive(Default)]
struct Marks {
    bytes: Option<Vec<u8>>,
    len: usize,
}

impl Marks {
    fn push(&mut self, mark: bool) {
        let len = self.len;
        self.len += 1;
        if self.bytes.is_none() {
            if mark {
                return;
            }
            let mut bytes = vec![u8::MAX; len.div_ceil(8)];
            if len % 8 != 0 {
                bytes[len / 8] = (1 << (len % 8)) - 1;
            }
            self.bytes = Some(bytes);
        }
        let bytes = self.bytes.as_mut().unwrap();
        if len % 8 == 0 {
            bytes.push(0);
        }
        bytes[len / 8] |= u8::from(mark) << (len % 8);
    }

    fn is_valid(&self, i: usize) -> bool {
        self.bytes.as_ref().is_none_or(|bytes| bytes[i / 8] >> (i % 8) & 1 == 1)
    }
}

enum Values {
    Int64(Vec<i64>),
    Int32(Vec<i32>),
    Texts(Vec<i32>, Vec<u8>),
    Keys(Vec<i32>, HashMap<String, i32>, Box<Column>),
    Lists(Vec<i32>, Box<Column>),
}

struct Column {
    marks: Marks,
    values: Values,
}

impl Column {
    fn new(values: Values) -> Column {
        Column { marks: Marks::default(), values }
    }

    fn texts() -> Column {
        Column::new(Values::Texts(vec![0], Vec::new()))
    }

    /// The four columns, without rows.
    fn four() -> Vec<Column> {
        let keys = Values::Keys(Vec::new(), HashMap::new(), Box::new(Column::texts()));
        let lists = Values::Lists(vec![0], Box::new(Column::new(Values::Int32(Vec::new()))));
        vec![Column::new(Values::Int64(Vec::new())), Column::texts(), Column::new(keys), Column::new(lists)]
    }

    /// Whether a cell is of the column's type.
    fn takes(&self, cell: &Cell) -> bool {
        match (&self.values, cell) {
            (_, Cell::Null) | (Values::Int64(_), Cell::Int64(_)) | (Values::Int32(_), Cell::Int32(_)) => true,
            (Values::Texts(..), Cell::Text(_)) => true,
            (Values::Keys(_, _, values), cell) => values.takes(cell),
            (Values::Lists(_, items), Cell::List(cells)) => cells.iter().all(|cell| items.takes(cell)),
            _ => false,
        }
    }

    fn push(&mut self, cell: &Cell) {
        assert!(self.takes(cell));
        self.marks.push(!matches!(cell, Cell::Null));
        match (&mut self.values, cell) {
            (Values::Int64(values), Cell::Int64(number)) => values.push(*number),
            (Values::Int64(values), _) => values.push(0),
            (Values::Int32(values), Cell::Int32(number)) => values.push(*number),
            (Values::Int32(values), _) => values.push(0),
            (Values::Texts(offsets, bytes), cell) => {
                if let Cell::Text(text) = cell {
                    bytes.extend_from_slice(text.as_bytes());
                }
                offsets.push(i32::try_from(bytes.len()).unwrap());
            }
            (Values::Keys(keys, known, values), cell @ Cell::Text(text)) => {
                if let Some(key) = known.get(text) {
                    return keys.push(*key);
                }
                let key = i32::try_from(known.len()).unwrap();
                known.insert(text.clone(), key);
                values.push(cell);
                keys.push(key);
            }
            (Values::Keys(keys, _, _), _) => keys.push(0),
            (Values::Lists(offsets, items), cell) => {
                if let Cell::List(cells) = cell {
                    cells.iter().for_each(|cell| items.push(cell));
                }
                offsets.push(i32::try_from(items.marks.len).unwrap());
            }
        }
    }

    /// The cell of a slot.
    fn cell_at(&self, i: usize) -> Cell {
        if !self.marks.is_valid(i) {
            return Cell::Null;
        }
        match &self.values {
            Values::Int64(values) => Cell::Int64(values[i]),
            Values::Int32(values) => Cell::Int32(values[i]),
            Values::Texts(offsets, bytes) => {
                let text = bytes[offsets[i] as usize..offsets[i + 1] as usize].to_vec();
                Cell::Text(String::from_utf8(text).unwrap())
            }
            Values::Keys(keys, _, values) => values.cell_at(keys[i] as usize),
            Values::Lists(offsets, items) => Cell::List((offsets[i]..offsets[i + 1]).map(|k| items.cell_at(k as usize)).collect()),
        }
    }
}

// ---- columns of a type each

#[derive(Default)]
struct Numbers {
    marks: Marks,
    values: Vec<i64>,
}

#[derive(Default)]
struct Texts {
    marks: Marks,
    offsets: Vec<i32>,
    bytes: Vec<u8>,
}

#[derive(Default)]
struct Keys {
    marks: Marks,
    keys: Vec<i32>,
    known: HashMap<String, i32>,
    values: Texts,
}

#[derive(Default)]
struct Lists {
    marks: Marks,
    offsets: Vec<i32>,
    items: Vec<i32>,
    item_marks: Marks,
}

impl Numbers {
    fn push(&mut self, number: Option<i64>) {
        self.marks.push(number.is_some());
        self.values.push(number.unwrap_or(0));
    }
}

impl Texts {
    fn new() -> Texts {
        Texts { offsets: vec![0], ..Texts::default() }
    }

    fn push(&mut self, text: &str) {
        self.marks.push(true);
        self.bytes.extend_from_slice(text.as_bytes());
        self.offsets.push(i32::try_from(self.bytes.len()).unwrap());
    }
}

impl Keys {
    fn push(&mut self, text: &String) {
        self.marks.push(true);
        if let Some(key) = self.known.get(text) {
            return self.keys.push(*key);
        }
        let key = i32::try_from(self.known.len()).unwrap();
        self.known.insert(text.clone(), key);
        self.values.push(text);
        self.keys.push(key);
    }
}

impl Lists {
    fn push(&mut self, items: &[i32]) {
        self.marks.push(true);
        for item in items {
            self.item_marks.push(true);
            self.items.push(*item);
        }
        self.offsets.push(i32::try_from(self.items.len()).unwrap());
    }
}

struct Typed(Numbers, Texts, Keys, Lists);

impl Typed {
    fn new() -> Typed {
        let keys = Keys { values: Texts::new(), ..Keys::default() };
        Typed(Numbers::default(), Texts::new(), keys, Lists { offsets: vec![0], ..Lists::default() })
    }

    fn push(&mut self, row: &Row) {
        self.0.push(row.number);
        self.1.push(row.word);
        self.2.push(&row.key);
        self.3.push(&row.items);
    }

    fn columns(self) -> Vec<Column> {
        let texts = |texts: Texts| Column { marks: texts.marks, values: Values::Texts(texts.offsets, texts.bytes) };
        let Typed(numbers, words, keys, lists) = self;
        let items = Column { marks: lists.item_marks, values: Values::Int32(lists.items) };
        vec![
            Column { marks: numbers.marks, values: Values::Int64(numbers.values) },
            texts(words),
            Column { marks: keys.marks, values: Values::Keys(keys.keys, keys.known, Box::new(texts(keys.values))) },
            Column { marks: lists.marks, values: Values::Lists(lists.offsets, Box::new(items)) },
        ]
    }
}

// ---- what is compared

/// A buffer, up to a multiple of 64 bytes.
fn put(bytes: &mut Vec<u8>, buffer: impl IntoIterator<Item = u8>) {
    bytes.extend(buffer);
    bytes.resize(bytes.len().next_multiple_of(64), 0);
}

fn put_column(bytes: &mut Vec<u8>, column: &Column) {
    put(bytes, column.marks.bytes.iter().flatten().copied());
    match &column.values {
        Values::Int64(values) => put(bytes, values.iter().flat_map(|value| value.to_le_bytes())),
        Values::Int32(values) | Values::Keys(values, _, _) => put(bytes, values.iter().flat_map(|value| value.to_le_bytes())),
        Values::Texts(offsets, texts) => {
            put(bytes, offsets.iter().flat_map(|offset| offset.to_le_bytes()));
            put(bytes, texts.iter().copied());
        }
        Values::Lists(offsets, items) => {
            put(bytes, offsets.iter().flat_map(|offset| offset.to_le_bytes()));
            put_column(bytes, items);
        }
    }
}

fn checksum(columns: &[Column]) -> u64 {
    columns.iter().fold(0, |sum: u64, column| {
        let mut bytes = Vec::new();
        put_column(&mut bytes, column);
        let column = bytes.iter().fold(0u64, |sum, byte| sum.wrapping_mul(31).wrapping_add(u64::from(*byte)));
        sum.wrapping_mul(31).wrapping_add(column)
    })
}

// ---- jobs

fn push_cells(rows: &[Vec<Cell>], count: usize) -> Vec<Column> {
    let mut columns = Column::four();
    for k in 0..count {
        columns.iter_mut().zip(&rows[k % ROWS]).for_each(|(column, cell)| column.push(cell));
    }
    columns
}

fn push_slots(sources: &[Column], count: usize) -> Vec<Column> {
    let mut columns = Column::four();
    for k in 0..count {
        columns.iter_mut().zip(sources).for_each(|(column, source)| column.push(&source.cell_at(k % ROWS)));
    }
    columns
}

fn push_rows(rows: &[Row], count: usize) -> Vec<Column> {
    let mut typed = Typed::new();
    for k in 0..count {
        typed.push(&rows[k % ROWS]);
    }
    typed.columns()
}

fn timed(rounds: usize, job: impl Fn() -> Vec<Column>) -> (u128, u64) {
    let (mut least, mut last) = (u128::MAX, 0);
    for _ in 0..rounds {
        let start = Instant::now();
        let made = black_box(job());
        least = least.min(start.elapsed().as_nanos());
        last = checksum(&made);
    }
    (least, last)
}

fn run(job: &str, size: usize, rounds: usize) -> (u128, u64) {
    let rows: Vec<Vec<Cell>> = (0..ROWS as u64).map(cells_at).collect();
    match job {
        "cells" => timed(rounds, || push_cells(black_box(&rows), size)),
        "copied" => {
            let sources = push_cells(&rows, ROWS);
            timed(rounds, || push_slots(black_box(&sources), size))
        }
        "typed" => {
            let rows: Vec<Row> = (0..ROWS as u64).map(row_at).collect();
            timed(rounds, || push_rows(black_box(&rows), size))
        }
        _ => {
            eprintln!("a name of no job");
            process::exit(1)
        }
    }
}

fn main() {
    let words: Vec<String> = env::args().skip(1).collect();
    match words.as_slice() {
        [] => JOBS.iter().for_each(|job| println!("{job} {}", run(job, SMALL, 1).1)),
        [job, size] => {
            let (nanoseconds, checksum) = run(job, size.parse().unwrap(), ROUNDS);
            println!("{job} {nanoseconds} {checksum}")
        }
        _ => process::exit(1),
    }
}
