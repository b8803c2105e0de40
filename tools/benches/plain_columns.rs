//! The jobs of `benches_format columns` in plain Rust, on the same data, to measure against. Columns lie in their batches as `write` lays them. The
//! metadata of a batch is a list of numbers and no table of FlatBuffers, and a file's footer a list of blocks: beside the bodies they weigh little.
//!
//!     plain_columns JOB SIZE     the job, the least nanoseconds of its rounds, the checksum, and the least nanoseconds of copies of the same bytes
//!     plain_columns              each job at a small size: its name and the checksum alone

use std::hint::black_box;
use std::time::Instant;
use std::{env, process, str};

const ROUNDS: usize = 7;
const SMALL: usize = 10_000;
const COLUMNS: usize = 100;
const ROWS: usize = 65_536;
const CHOSEN: usize = 50;
const MEMBERS: usize = 10;
const TEXTS: usize = 1000;
const WORDS: [&str; 8] = ["", "a", "north", "Zürich", "日本", "quick", "length", "columns"];
const KINDS: [(&str, Shape); 5] =
    [("numbers", Shape::Numbers), ("texts", Shape::Texts), ("lists", Shape::Lists), ("keys", Shape::Keys), ("structs", Shape::Structs)];
const TABLE_JOBS: [&str; 5] = ["read_choice", "write_file", "append_file", "write_stream", "read_stream"];

#[derive(Clone, Copy)]
enum Shape {
    Numbers,
    Texts,
    Lists,
    Keys,
    Structs,
}

enum Content {
    Numbers(Vec<i32>),
    Texts(Vec<i32>, Vec<u8>),
    Lists(Vec<i32>, Box<Column>),
    Structs(Vec<Column>),
}

/// How long a column is, its marks and how many of them are not set, and what stands in it.
struct Column {
    len: usize,
    marks: Option<(Vec<u8>, usize)>,
    content: Content,
}

// ---- the data

fn mixed(place: u64) -> u64 {
    let number = place.wrapping_mul(0x9e37_79b9_7f4a_7c15);
    let number = (number ^ (number >> 30)).wrapping_mul(0xbf58_476d_1ce4_e5b9);
    let number = (number ^ (number >> 27)).wrapping_mul(0x94d0_49bb_1331_11eb);
    number ^ (number >> 31)
}

fn number_at(place: u64) -> i32 {
    (mixed(place) % 0x1_0000) as i32
}

fn numbers(values: Vec<i32>) -> Column {
    Column { len: values.len(), marks: None, content: Content::Numbers(values) }
}

/// So many columns of so many numbers, those from a place on.
fn numbers_from(place: usize, columns: usize, count: usize) -> Vec<Column> {
    let column = |start: usize| numbers((start..start + count).map(|k| number_at(k as u64)).collect());
    (0..columns).map(|k| column(place + k * count)).collect()
}

/// Marks that are not set where a number is a multiple of eight.
fn marks(count: usize) -> Option<(Vec<u8>, usize)> {
    let (mut bytes, mut unset) = (vec![0; count.div_ceil(8)], 0);
    for i in 0..count {
        let is_null = mixed(i as u64) % 8 == 0;
        bytes[i / 8] |= u8::from(!is_null) << (i % 8);
        unset += usize::from(is_null);
    }
    Some((bytes, unset))
}

fn texts(count: usize) -> Column {
    let (mut offsets, mut bytes) = (vec![0], Vec::new());
    for k in 0..count as u64 {
        bytes.extend_from_slice(WORDS[(mixed(k) % 8) as usize].as_bytes());
        offsets.push(bytes.len() as i32);
    }
    Column { len: count, marks: None, content: Content::Texts(offsets, bytes) }
}

fn lists(count: usize) -> Column {
    let (mut offsets, mut items) = (vec![0], Vec::new());
    for number in (0..count as u64).map(mixed) {
        let len = if number % 8 == 0 { 0 } else { (number / 8 % 4) as usize };
        items.resize(items.len() + len, (number % 0x1_0000) as i32);
        offsets.push(items.len() as i32);
    }
    Column { len: count, marks: marks(count), content: Content::Lists(offsets, Box::new(numbers(items))) }
}

fn column(shape: Shape, count: usize) -> Column {
    let places = 0..count as u64;
    match shape {
        Shape::Numbers => {
            let values = places.map(|k| if mixed(k) % 8 == 0 { 0 } else { number_at(k) }).collect();
            Column { len: count, marks: marks(count), content: Content::Numbers(values) }
        }
        Shape::Texts => texts(count),
        Shape::Lists => lists(count),
        Shape::Keys => numbers(places.map(|k| (mixed(k) % TEXTS as u64) as i32).collect()),
        Shape::Structs => Column { len: count, marks: None, content: Content::Structs(numbers_from(0, MEMBERS, count)) },
    }
}

/// The batches of a table of so many numbers in all.
fn table(numbers: usize) -> Vec<Vec<Column>> {
    let rows = numbers / COLUMNS;
    (0..rows).step_by(ROWS).map(|start| numbers_from(start * COLUMNS, COLUMNS, ROWS.min(rows - start))).collect()
}

// ---- what is written

/// The nodes, the buffers and the body of a batch.
#[derive(Default)]
struct Body {
    nodes: Vec<(usize, usize)>,
    buffers: Vec<(usize, usize)>,
    bytes: Vec<u8>,
}

fn as_bytes(values: &[i32]) -> &[u8] {
    // Any byte is a `u8`, and the host has the lowest byte first.
    unsafe { std::slice::from_raw_parts(values.as_ptr().cast(), 4 * values.len()) }
}

impl Body {
    fn of(column: &Column) -> Body {
        let mut body = Body::default();
        body.column(column);
        body
    }

    /// A buffer, up to a multiple of 64 bytes.
    fn buffer(&mut self, bytes: &[u8]) {
        self.buffers.push((self.bytes.len(), bytes.len()));
        self.bytes.extend_from_slice(bytes);
        self.bytes.resize(self.bytes.len().next_multiple_of(64), 0);
    }

    fn column(&mut self, column: &Column) {
        self.nodes.push((column.len, column.marks.as_ref().map_or(0, |marks| marks.1)));
        self.buffer(column.marks.as_ref().map_or(&[], |marks| &marks.0));
        match &column.content {
            Content::Numbers(values) => self.buffer(as_bytes(values)),
            Content::Texts(offsets, bytes) => {
                self.buffer(as_bytes(offsets));
                self.buffer(bytes);
            }
            Content::Lists(offsets, items) => {
                self.buffer(as_bytes(offsets));
                self.column(items);
            }
            Content::Structs(members) => members.iter().for_each(|member| self.column(member)),
        }
    }
}

// ---- what is read

/// What is left to read of a batch.
struct Reader<'a> {
    nodes: &'a [(usize, usize)],
    buffers: &'a [(usize, usize)],
    bytes: &'a [u8],
}

/// Offsets that begin at zero, never fall, and end within so many items.
fn tested(offsets: Vec<i32>, items: usize) -> Vec<i32> {
    let rise = offsets.iter().zip(&offsets[1..]).fold(true, |rise, (left, right)| rise & (left <= right));
    assert!(offsets[0] == 0 && rise && offsets[offsets.len() - 1] as usize <= items);
    offsets
}

impl<'a> Reader<'a> {
    fn new(body: &'a Body) -> Reader<'a> {
        Reader { nodes: &body.nodes, buffers: &body.buffers, bytes: &body.bytes }
    }

    fn buffer(&mut self) -> &'a [u8] {
        let (place, len) = self.buffers[0];
        self.buffers = &self.buffers[1..];
        &self.bytes[place..place + len]
    }

    fn numbers(&mut self, count: usize) -> Vec<i32> {
        self.buffer()[..4 * count].chunks_exact(4).map(|v| i32::from_le_bytes(v.try_into().unwrap())).collect()
    }

    fn marks(&mut self, len: usize, nulls: usize) -> Option<(Vec<u8>, usize)> {
        let bytes = self.buffer();
        if nulls == 0 {
            return None;
        }
        let bytes = bytes[..len.div_ceil(8)].to_vec();
        let set: usize = bytes.iter().map(|byte| byte.count_ones() as usize).sum();
        Some((bytes, len - set))
    }

    fn column(&mut self, shape: Shape) -> Column {
        let (len, nulls) = self.nodes[0];
        self.nodes = &self.nodes[1..];
        let marks = self.marks(len, nulls);
        let content = match shape {
            Shape::Numbers => Content::Numbers(self.numbers(len)),
            Shape::Texts => {
                let offsets = self.numbers(len + 1);
                let bytes = self.buffer().to_vec();
                let offsets = tested(offsets, bytes.len());
                let text = str::from_utf8(&bytes).unwrap();
                assert!(offsets.iter().all(|offset| text.is_char_boundary(*offset as usize)));
                Content::Texts(offsets, bytes)
            }
            Shape::Lists => {
                let offsets = self.numbers(len + 1);
                let items = self.column(Shape::Numbers);
                Content::Lists(tested(offsets, items.len), Box::new(items))
            }
            Shape::Keys => {
                let keys = self.numbers(len);
                assert!(keys.iter().fold(true, |within, key| within & ((*key as u32) < TEXTS as u32)));
                Content::Numbers(keys)
            }
            Shape::Structs => Content::Structs((0..MEMBERS).map(|_| self.column(Shape::Numbers)).collect()),
        };
        Column { len, marks, content }
    }

    /// Passes over columns of numbers.
    fn skip(&mut self, columns: usize) {
        self.nodes = &self.nodes[columns..];
        self.buffers = &self.buffers[2 * columns..];
    }
}

// ---- files and streams

fn put_pairs(out: &mut Vec<u8>, pairs: &[(usize, usize)]) {
    for (first, second) in pairs {
        out.extend_from_slice(&(*first as u64).to_le_bytes());
        out.extend_from_slice(&(*second as u64).to_le_bytes());
    }
}

fn pairs(bytes: &[u8]) -> Vec<(usize, usize)> {
    let number = |bytes: &[u8]| u64::from_le_bytes(bytes.try_into().unwrap()) as usize;
    bytes.chunks_exact(16).map(|pair| (number(&pair[..8]), number(&pair[8..]))).collect()
}

/// A message: how many nodes and buffers it has, and how many bytes, and then these. It is encoded in the memory of the one before it.
fn put_message(out: &mut Vec<u8>, columns: &[Column], body: &mut Body) {
    body.nodes.clear();
    body.buffers.clear();
    body.bytes.clear();
    columns.iter().for_each(|column| body.column(column));
    put_pairs(out, &[(body.nodes.len(), body.buffers.len()), (body.bytes.len(), 0)]);
    put_pairs(out, &body.nodes);
    put_pairs(out, &body.buffers);
    out.extend_from_slice(&body.bytes);
}

/// Reads the message at a place, and says where it ends.
fn message<T>(bytes: &[u8], place: usize, read: impl FnOnce(Reader) -> T) -> (T, usize) {
    let counts = pairs(&bytes[place..place + 32]);
    let nodes = place + 32;
    let buffers = nodes + 16 * counts[0].0;
    let body = buffers + 16 * counts[0].1;
    let end = body + counts[1].0;
    let (nodes, buffers) = (pairs(&bytes[nodes..buffers]), pairs(&bytes[buffers..body]));
    (read(Reader { nodes: &nodes, buffers: &buffers, bytes: &bytes[body..end] }), end)
}

fn all_columns(mut reader: Reader) -> Vec<Column> {
    (0..COLUMNS).map(|_| reader.column(Shape::Numbers)).collect()
}

fn write_stream(table: &[Vec<Column>]) -> Vec<u8> {
    let (mut out, mut body) = (Vec::new(), Body::default());
    table.iter().for_each(|columns| put_message(&mut out, columns, &mut body));
    out
}

fn read_stream(bytes: &[u8]) -> Vec<Vec<Column>> {
    let (mut batches, mut place) = (Vec::new(), 0);
    while place < bytes.len() {
        let (columns, end) = message(bytes, place, all_columns);
        batches.push(columns);
        place = end;
    }
    batches
}

/// Messages, and behind them the footer: where each begins, and how many there are.
fn write_file(table: &[Vec<Column>]) -> Vec<u8> {
    append_file(vec![0; 16], table)
}

/// Where a file's messages begin, and where its footer does.
fn footer(file: &[u8]) -> (Vec<(usize, usize)>, usize) {
    let end = file.len() - 16;
    let count = pairs(&file[end..])[0].0;
    let start = end - 16 * count;
    (pairs(&file[start..end]), start)
}

fn append_file(mut file: Vec<u8>, more: &[Vec<Column>]) -> Vec<u8> {
    let (mut blocks, end) = footer(&file);
    let mut body = Body::default();
    file.truncate(end);
    for columns in more {
        blocks.push((file.len(), 0));
        put_message(&mut file, columns, &mut body);
    }
    put_pairs(&mut file, &blocks);
    put_pairs(&mut file, &[(blocks.len(), 0)]);
    file
}

fn read_choice(file: &[u8]) -> Vec<Vec<Column>> {
    let chosen = |mut reader: Reader| {
        reader.skip(CHOSEN);
        vec![reader.column(Shape::Numbers)]
    };
    footer(file).0.iter().map(|(place, _)| message(file, *place, chosen).0).collect()
}

fn read_file(file: &[u8]) -> Vec<Vec<Column>> {
    footer(file).0.iter().map(|(place, _)| message(file, *place, all_columns).0).collect()
}

// ---- how they are timed

fn bytes_checksum(bytes: &[u8]) -> u64 {
    bytes.iter().fold(0, |sum: u64, byte| sum.wrapping_mul(31).wrapping_add(u64::from(*byte)))
}

fn column_checksum(column: &Column) -> u64 {
    bytes_checksum(&Body::of(column).bytes)
}

fn batches_checksum(batches: &[Vec<Column>]) -> u64 {
    let columns = batches.iter().flatten().map(column_checksum);
    columns.fold(0, |sum, column| sum.wrapping_mul(31).wrapping_add(column))
}

fn timed<T>(rounds: usize, job: impl Fn() -> T, checksum: impl Fn(&T) -> u64) -> (u128, u64) {
    let (mut least, mut last) = (u128::MAX, 0);
    for _ in 0..rounds {
        let start = Instant::now();
        let made = black_box(job());
        least = least.min(start.elapsed().as_nanos());
        last = checksum(&made);
    }
    (least, last)
}

/// The least nanoseconds and the checksum of a job, and the least nanoseconds of copies of some bytes.
fn beside_copies<T>(rounds: usize, bytes: &[&[u8]], job: impl Fn() -> T, checksum: impl Fn(&T) -> u64) -> (u128, u64, u128) {
    let (least, sum) = timed(rounds, job, checksum);
    let copies = timed(rounds, || black_box(bytes).iter().map(|part| part.to_vec()).collect::<Vec<_>>(), |_| 0);
    (least, sum, copies.0)
}

fn run_column(job: &str, shape: Shape, size: usize, rounds: usize) -> (u128, u64, u128) {
    let column = column(shape, size);
    let body = Body::of(&column);
    if job == "write" {
        let write = || Body::of(black_box(&column));
        return beside_copies(rounds, &[&body.bytes], write, |made| bytes_checksum(&made.bytes));
    }
    drop(column);
    beside_copies(rounds, &[&body.bytes], || Reader::new(black_box(&body)).column(shape), column_checksum)
}

fn run_table(job: &str, size: usize, rounds: usize) -> (u128, u64, u128) {
    let table = table(size);
    let file = write_file(&table);
    match job {
        "write_file" => beside_copies(rounds, &[&file], || write_file(black_box(&table)), |made| batches_checksum(&read_file(made))),
        "write_stream" => beside_copies(rounds, &[&file], || write_stream(black_box(&table)), |made| batches_checksum(&read_stream(made))),
        "append_file" => {
            let more = [numbers_from(0, COLUMNS, 1)];
            beside_copies(rounds, &[&file], || append_file(black_box(&file).to_vec(), &more), |made| batches_checksum(&read_file(made)))
        }
        "read_stream" => {
            let stream = write_stream(&table);
            drop(table);
            beside_copies(rounds, &[&stream], || read_stream(black_box(&stream)), |made| batches_checksum(made))
        }
        _ => {
            let mut parts: Vec<&[u8]> = table.iter().filter_map(|columns| numbers_of(&columns[CHOSEN])).collect();
            parts.push(&file[footer(&file).1..]);
            beside_copies(rounds, &parts, || read_choice(black_box(&file)), |made| batches_checksum(made))
        }
    }
}

fn numbers_of(column: &Column) -> Option<&[u8]> {
    match &column.content {
        Content::Numbers(values) => Some(as_bytes(values)),
        _ => None,
    }
}

fn run(job: &str, size: usize, rounds: usize) -> (u128, u64, u128) {
    if TABLE_JOBS.contains(&job) {
        return run_table(job, size, rounds);
    }
    for (name, shape) in KINDS {
        match job.split_once('_') {
            Some((what @ ("read" | "write"), kind)) if kind == name => return run_column(what, shape, size, rounds),
            _ => {}
        }
    }
    eprintln!("a name of no job");
    process::exit(1)
}

fn main() {
    let words: Vec<String> = env::args().skip(1).collect();
    match words.as_slice() {
        [] => {
            let columns = ["read", "write"].iter().flat_map(|what| KINDS.map(|(kind, _)| format!("{what}_{kind}")));
            let jobs = columns.chain(TABLE_JOBS.map(String::from));
            jobs.for_each(|job| println!("{job} {}", run(&job, SMALL, 1).1))
        }
        [job, size] => {
            let (nanoseconds, checksum, copies) = run(job, size.parse().unwrap(), ROUNDS);
            println!("{job} {nanoseconds} {checksum} {copies}")
        }
        _ => process::exit(1),
    }
}
