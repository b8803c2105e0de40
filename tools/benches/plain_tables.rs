//! Jobs of `tables` on the large inputs of `large.py` in plain Rust, to measure against: it decodes every batch into vectors, and compares
//! them, encodes a window of them again, or builds columns anew row by row. It trusts its input but for UTF-8, and takes the canonical
//! laying that `tables` writes; the bytes of a dictionary's message are kept as they came.
//!
//!     plain_tables cut KIND OFFSET LENGTH IN OUT
//!     plain_tables seal KIND SIZE IN OUT
//!     plain_tables same KIND LEFT RIGHT

use std::collections::HashMap;
use std::{env, fs};

enum Shape {
    Int32,
    Int64,
    Text,
    List,
    Keys,
    Record(Vec<Shape>),
}

enum Content {
    Int32(Vec<i32>),
    Int64(Vec<i64>),
    Text(Vec<i32>, String),
    List(Vec<i32>, Box<Column>),
    Keys(Vec<i32>),
    Record(Vec<Column>),
}

/// A column: how long it is, which slots are valid, and what stands in it.
struct Column {
    len: usize,
    validity: Option<Vec<u8>>,
    content: Content,
}

struct Batch {
    columns: Vec<Column>,
    rows: usize,
}

struct Table {
    shapes: Vec<Shape>,
    schema: Vec<u8>,
    dictionary: Vec<String>,
    dictionary_message: Vec<u8>,
    batches: Vec<Batch>,
}

fn shapes_of(kind: &str) -> Vec<Shape> {
    match kind {
        "numbers" => vec![Shape::Int32, Shape::Int32],
        "texts" => vec![Shape::Text],
        "lists" => vec![Shape::List],
        "keys" => vec![Shape::Keys],
        "records" => vec![Shape::Record((0..10).map(|k| if k % 2 == 1 { Shape::Int32 } else { Shape::Int64 }).collect())],
        _ => panic!("another kind"),
    }
}

fn u32_at(bytes: &[u8], place: usize) -> usize {
    u32::from_le_bytes(bytes[place..place + 4].try_into().unwrap()) as usize
}

fn u64_at(bytes: &[u8], place: usize) -> usize {
    u64::from_le_bytes(bytes[place..place + 8].try_into().unwrap()) as usize
}

/// Where the field of a slot of the table at `table` stands.
fn field(bytes: &[u8], table: usize, slot: usize) -> usize {
    let vtable = table - u32_at(bytes, table);
    let entry = vtable + 4 + 2 * slot;
    table + u16::from_le_bytes(bytes[entry..entry + 2].try_into().unwrap()) as usize
}

fn target(bytes: &[u8], place: usize) -> usize {
    place + u32_at(bytes, place)
}

fn is_valid(validity: &Option<Vec<u8>>, i: usize) -> bool {
    validity.as_ref().is_none_or(|bits| bits[i / 8] >> (i % 8) & 1 == 1)
}

/// What is left to read of a batch: its nodes and buffers stand at places of the metadata.
struct Reader<'a> {
    metadata: &'a [u8],
    body: &'a [u8],
    node: usize,
    buffer: usize,
}

impl<'a> Reader<'a> {
    fn new(metadata: &'a [u8], header: usize, body: &'a [u8]) -> Self {
        let node = target(metadata, field(metadata, header, 1)) + 4;
        let buffer = target(metadata, field(metadata, header, 2)) + 4;
        Reader { metadata, body, node, buffer }
    }

    fn node(&mut self) -> (usize, usize) {
        self.node += 16;
        (u64_at(self.metadata, self.node - 16), u64_at(self.metadata, self.node - 8))
    }

    fn buffer(&mut self) -> &'a [u8] {
        self.buffer += 16;
        let place = u64_at(self.metadata, self.buffer - 16);
        &self.body[place..place + u64_at(self.metadata, self.buffer - 8)]
    }

    fn int32(&mut self, count: usize) -> Vec<i32> {
        self.buffer()[..4 * count].chunks_exact(4).map(|v| i32::from_le_bytes(v.try_into().unwrap())).collect()
    }

    fn int64(&mut self, count: usize) -> Vec<i64> {
        self.buffer()[..8 * count].chunks_exact(8).map(|v| i64::from_le_bytes(v.try_into().unwrap())).collect()
    }

    fn text(&mut self, len: usize) -> Content {
        let offsets = self.int32(len + 1);
        let text = String::from_utf8(self.buffer().to_vec()).unwrap();
        assert!(offsets.iter().all(|offset| text.is_char_boundary(*offset as usize)));
        assert!(offsets.windows(2).all(|pair| pair[0] <= pair[1]));
        Content::Text(offsets, text)
    }

    fn column(&mut self, shape: &Shape, values: usize) -> Column {
        let (len, nulls) = self.node();
        let bits = self.buffer();
        let validity = (nulls > 0).then(|| bits[..len.div_ceil(8)].to_vec());
        let content = match shape {
            Shape::Int32 => Content::Int32(self.int32(len)),
            Shape::Int64 => Content::Int64(self.int64(len)),
            Shape::Text => self.text(len),
            Shape::List => {
                let offsets = self.int32(len + 1);
                assert!(offsets.windows(2).all(|pair| pair[0] <= pair[1]));
                Content::List(offsets, Box::new(self.column(&Shape::Int32, values)))
            }
            Shape::Keys => {
                let keys = self.int32(len);
                assert!((0..len).all(|i| !is_valid(&validity, i) || (keys[i] as u32 as usize) < values));
                Content::Keys(keys)
            }
            Shape::Record(shapes) => Content::Record(shapes.iter().map(|shape| self.column(shape, values)).collect()),
        };
        Column { len, validity, content }
    }
}

fn texts_of(column: &Column) -> Vec<String> {
    let Content::Text(offsets, text) = &column.content else { panic!("no texts") };
    offsets.windows(2).map(|pair| text[pair[0] as usize..pair[1] as usize].to_string()).collect()
}

fn read(kind: &str, name: &str) -> Table {
    let bytes = fs::read(name).unwrap();
    let first = 8 + u32_at(&bytes, 4);
    let mut table = Table {
        shapes: shapes_of(kind),
        schema: bytes[..first].to_vec(),
        dictionary: Vec::new(),
        dictionary_message: Vec::new(),
        batches: Vec::new(),
    };
    let mut place = first;
    while u32_at(&bytes, place + 4) > 0 {
        let size = u32_at(&bytes, place + 4);
        let metadata = &bytes[place + 8..place + 8 + size];
        let root = target(metadata, 0);
        let at = place + 8 + size;
        let end = at + u64_at(metadata, field(metadata, root, 3));
        let header = target(metadata, field(metadata, root, 2));
        if metadata[field(metadata, root, 1)] == 2 {
            let data = target(metadata, field(metadata, header, 1));
            let values = Reader::new(metadata, data, &bytes[at..end]).column(&Shape::Text, 0);
            table.dictionary = texts_of(&values);
            table.dictionary_message = bytes[place..end].to_vec();
        } else {
            let mut reader = Reader::new(metadata, header, &bytes[at..end]);
            let count = table.dictionary.len();
            let columns: Vec<Column> = table.shapes.iter().map(|shape| reader.column(shape, count)).collect();
            table.batches.push(Batch { rows: columns[0].len, columns });
        }
        place = end;
    }
    table
}

// ---- what is written

/// The metadata of a record batch message, laid as `tables` lays it.
fn metadata_of(rows: usize, nodes: &[(usize, usize)], buffers: &[(usize, usize)], body: usize) -> Vec<u8> {
    let mut out = Vec::new();
    let short = |out: &mut Vec<u8>, numbers: &[u16]| numbers.iter().for_each(|n| out.extend_from_slice(&n.to_le_bytes()));
    out.extend_from_slice(&[24, 0, 0, 0, 0, 0, 0, 0]);
    short(&mut out, &[14, 24, 4, 6, 8, 16, 0, 0]);
    out.extend_from_slice(&16u32.to_le_bytes());
    short(&mut out, &[4, 3]);
    out.extend_from_slice(&32u32.to_le_bytes());
    out.extend_from_slice(&[0; 4]);
    out.extend_from_slice(&(body as u64).to_le_bytes());
    short(&mut out, &[12, 24, 8, 16, 20, 0, 0, 0]);
    out.extend_from_slice(&16u64.to_le_bytes());
    out.extend_from_slice(&(rows as u64).to_le_bytes());
    out.extend_from_slice(&12u32.to_le_bytes());
    out.extend_from_slice(&(16 + 16 * nodes.len() as u32).to_le_bytes());
    for structs in [nodes, buffers] {
        out.extend_from_slice(&[0; 4]);
        out.extend_from_slice(&(structs.len() as u32).to_le_bytes());
        for (a, b) in structs {
            out.extend_from_slice(&(*a as u64).to_le_bytes());
            out.extend_from_slice(&(*b as u64).to_le_bytes());
        }
    }
    out
}

#[derive(Default)]
struct Writer {
    nodes: Vec<(usize, usize)>,
    buffers: Vec<(usize, usize)>,
    body: Vec<u8>,
}

impl Writer {
    /// Ends the buffer that begins at a place.
    fn end(&mut self, place: usize) {
        self.buffers.push((place, self.body.len() - place));
        self.body.resize(self.body.len().next_multiple_of(64), 0);
    }

    fn offsets(&mut self, offsets: &[i32]) {
        let place = self.body.len();
        offsets.iter().for_each(|offset| self.body.extend_from_slice(&(offset - offsets[0]).to_le_bytes()));
        self.end(place);
    }

    fn validity(&mut self, column: &Column, start: usize, count: usize) {
        let place = self.body.len();
        let mut nulls = 0;
        if let Some(bits) = &column.validity {
            self.body.resize(place + count.div_ceil(8), 0);
            for i in 0..count {
                let valid = bits[(start + i) / 8] >> ((start + i) % 8) & 1;
                self.body[place + i / 8] |= valid << (i % 8);
                nulls += usize::from(valid == 0);
            }
            if nulls == 0 {
                self.body.truncate(place);
            }
        }
        self.nodes.push((count, nulls));
        self.end(place);
    }

    fn column(&mut self, column: &Column, start: usize, count: usize) {
        self.validity(column, start, count);
        let place = self.body.len();
        match &column.content {
            Content::Int32(values) | Content::Keys(values) => {
                values[start..start + count].iter().for_each(|v| self.body.extend_from_slice(&v.to_le_bytes()));
                self.end(place);
            }
            Content::Int64(values) => {
                values[start..start + count].iter().for_each(|v| self.body.extend_from_slice(&v.to_le_bytes()));
                self.end(place);
            }
            Content::Text(offsets, text) => {
                let offsets = &offsets[start..=start + count];
                self.offsets(offsets);
                let place = self.body.len();
                self.body.extend_from_slice(&text.as_bytes()[offsets[0] as usize..offsets[count] as usize]);
                self.end(place);
            }
            Content::List(offsets, child) => {
                let offsets = &offsets[start..=start + count];
                self.offsets(offsets);
                self.column(child, offsets[0] as usize, (offsets[count] - offsets[0]) as usize);
            }
            Content::Record(children) => children.iter().for_each(|child| self.column(child, start, count)),
        }
    }
}

/// Appends a message with some rows of a batch.
fn encode(out: &mut Vec<u8>, columns: &[Column], start: usize, count: usize) {
    let mut writer = Writer::default();
    columns.iter().for_each(|column| writer.column(column, start, count));
    let metadata = metadata_of(count, &writer.nodes, &writer.buffers, writer.body.len());
    out.extend_from_slice(&[255; 4]);
    out.extend_from_slice(&(metadata.len() as u32).to_le_bytes());
    out.extend_from_slice(&metadata);
    out.extend_from_slice(&writer.body);
}

fn finish(mut out: Vec<u8>, name: &str) {
    out.extend_from_slice(&[255, 255, 255, 255, 0, 0, 0, 0]);
    fs::write(name, out).unwrap();
}

fn cut(words: &[String]) {
    let (offset, length): (usize, usize) = (words[1].parse().unwrap(), words[2].parse().unwrap());
    let table = read(&words[0], &words[3]);
    let mut out = table.schema;
    out.extend_from_slice(&table.dictionary_message);
    let (mut skipped, mut taken) = (0, 0);
    for batch in &table.batches {
        let begin = batch.rows.min(offset - skipped);
        let count = (batch.rows - begin).min(length - taken);
        if count > 0 {
            encode(&mut out, &batch.columns, begin, count);
        }
        skipped += begin;
        taken += count;
    }
    finish(out, &words[4]);
}

// ---- what is compared

fn same_slot(left: &Column, right: &Column, i: usize, values: (&[String], &[String])) -> bool {
    let valid = is_valid(&left.validity, i);
    if valid != is_valid(&right.validity, i) || !valid {
        return valid == is_valid(&right.validity, i);
    }
    match (&left.content, &right.content) {
        (Content::Int32(a), Content::Int32(b)) => a[i] == b[i],
        (Content::Int64(a), Content::Int64(b)) => a[i] == b[i],
        (Content::Text(a, left), Content::Text(b, right)) => {
            left[a[i] as usize..a[i + 1] as usize] == right[b[i] as usize..b[i + 1] as usize]
        }
        (Content::List(a, left), Content::List(b, right)) => {
            let (Content::Int32(x), Content::Int32(y)) = (&left.content, &right.content) else { panic!("no numbers") };
            x[a[i] as usize..a[i + 1] as usize] == y[b[i] as usize..b[i + 1] as usize]
        }
        (Content::Keys(a), Content::Keys(b)) => values.0[a[i] as usize] == values.1[b[i] as usize],
        (Content::Record(a), Content::Record(b)) => a.iter().zip(b).all(|(a, b)| same_slot(a, b, i, values)),
        _ => false,
    }
}

fn same(words: &[String]) {
    let (left, right) = (read(&words[0], &words[1]), read(&words[0], &words[2]));
    let values = (left.dictionary.as_slice(), right.dictionary.as_slice());
    let is_same = left.schema == right.schema
        && left.batches.iter().zip(&right.batches).all(|(a, b)| {
            a.columns.iter().zip(&b.columns).all(|(x, y)| match (&x.content, &y.content) {
                (Content::Int32(p), Content::Int32(q)) if x.validity.is_none() && y.validity.is_none() => p == q,
                _ => (0..x.len).all(|i| same_slot(x, y, i, values)),
            })
        });
    assert!(is_same);
}

// ---- what is built anew

/// A column that grows row by row.
struct Builder<'a> {
    nulls: usize,
    column: Column,
    places: HashMap<&'a str, i32>,
    values: Vec<&'a str>,
    below: Vec<Builder<'a>>,
}

impl<'a> Builder<'a> {
    fn new(shape: &Shape) -> Self {
        let (content, below) = match shape {
            Shape::Int32 => (Content::Int32(Vec::new()), Vec::new()),
            Shape::Int64 => (Content::Int64(Vec::new()), Vec::new()),
            Shape::Text => (Content::Text(vec![0], String::new()), Vec::new()),
            Shape::List => {
                let none = Column { len: 0, validity: None, content: Content::Int32(Vec::new()) };
                (Content::List(vec![0], Box::new(none)), vec![Builder::new(&Shape::Int32)])
            }
            Shape::Keys => (Content::Keys(Vec::new()), Vec::new()),
            Shape::Record(shapes) => (Content::Record(Vec::new()), shapes.iter().map(Builder::new).collect()),
        };
        let column = Column { len: 0, validity: Some(Vec::new()), content };
        Builder { nulls: 0, column, places: HashMap::new(), values: Vec::new(), below }
    }

    fn mark(&mut self, valid: bool) {
        let i = self.column.len;
        let bits = self.column.validity.as_mut().unwrap();
        if i % 8 == 0 {
            bits.push(0);
        }
        bits[i / 8] |= u8::from(valid) << (i % 8);
        self.nulls += usize::from(!valid);
        self.column.len += 1;
    }

    fn push(&mut self, from: &Column, i: usize, dictionary: &'a [String]) {
        let valid = is_valid(&from.validity, i);
        self.mark(valid);
        match (&mut self.column.content, &from.content) {
            (Content::Int32(out), Content::Int32(values)) => out.push(if valid { values[i] } else { 0 }),
            (Content::Int64(out), Content::Int64(values)) => out.push(if valid { values[i] } else { 0 }),
            (Content::Text(offsets, out), Content::Text(places, text)) => {
                if valid {
                    out.push_str(&text[places[i] as usize..places[i + 1] as usize]);
                }
                offsets.push(out.len() as i32);
            }
            (Content::List(offsets, _), Content::List(places, child)) => {
                if valid {
                    (places[i]..places[i + 1]).for_each(|k| self.below[0].push(child, k as usize, dictionary));
                }
                offsets.push(self.below[0].column.len as i32);
            }
            (Content::Keys(out), Content::Keys(keys)) => {
                let values = &mut self.values;
                out.push(if !valid {
                    0
                } else {
                    let text = dictionary[keys[i] as usize].as_str();
                    *self.places.entry(text).or_insert_with(|| {
                        values.push(text);
                        values.len() as i32 - 1
                    })
                });
            }
            (Content::Record(_), Content::Record(children)) => {
                self.below.iter_mut().zip(children).for_each(|(out, child)| out.push(child, i, dictionary));
            }
            _ => panic!("another column"),
        }
    }

    fn finish(mut self) -> Column {
        if self.nulls == 0 {
            self.column.validity = None;
        }
        match &mut self.column.content {
            Content::List(_, child) => **child = self.below.pop().unwrap().finish(),
            Content::Record(children) => *children = self.below.into_iter().map(Builder::finish).collect(),
            _ => {}
        }
        self.column
    }
}

/// Appends the columns that were built. Their dictionary has to be that of the input, whose message is written once.
fn put(out: &mut Vec<u8>, table: &Table, builders: Vec<Builder<'_>>, is_first: bool) {
    for builder in &builders {
        assert!(matches!(builder.column.content, Content::Keys(_)) == (builder.values == table.dictionary) || table.dictionary.is_empty());
    }
    if is_first {
        out.extend_from_slice(&table.dictionary_message);
    }
    let columns: Vec<Column> = builders.into_iter().map(Builder::finish).collect();
    encode(out, &columns, 0, columns[0].len);
}

fn seal(words: &[String]) {
    let size: usize = words[1].parse().unwrap();
    let table = read(&words[0], &words[2]);
    let mut out = table.schema.clone();
    let begin = || -> Vec<Builder<'_>> { table.shapes.iter().map(Builder::new).collect() };
    let (mut builders, mut is_first) = (begin(), true);
    for batch in &table.batches {
        for i in 0..batch.rows {
            builders.iter_mut().zip(&batch.columns).for_each(|(out, column)| out.push(column, i, &table.dictionary));
            if builders[0].column.len == size {
                put(&mut out, &table, std::mem::replace(&mut builders, begin()), is_first);
                is_first = false;
            }
        }
    }
    if builders[0].column.len > 0 {
        put(&mut out, &table, builders, is_first);
    }
    finish(out, &words[3]);
}

fn main() {
    let words: Vec<String> = env::args().skip(1).collect();
    match words[0].as_str() {
        "cut" => cut(&words[1..]),
        "seal" => seal(&words[1..]),
        "same" => same(&words[1..]),
        _ => panic!("another job"),
    }
}
