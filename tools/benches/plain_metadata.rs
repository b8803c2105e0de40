//! The jobs of `benches_format metadata` in plain Rust, on the same schema, to measure against: its metadata is read with each place tested against
//! the bytes' end and each text for UTF-8, and written in the same layout, object by object from the front, references filled in behind.
//!
//!     plain_metadata JOB SIZE     the job, the least nanoseconds of its rounds, the checksum
//!     plain_metadata              each job at a small size: its name and the checksum alone

use std::collections::BTreeMap;
use std::hint::black_box;
use std::time::Instant;
use std::{env, process, str};

const ROUNDS: usize = 100;
const SMALL: usize = 300;
const LEVELS: usize = 3;
const MOST_LEVELS: usize = 64;
const INT: u8 = 2;
const STRUCT: u8 = 13;
const JOBS: [&str; 3] = ["read", "write", "copy"];

enum DataType {
    Int32,
    Struct(Vec<Field>),
}

struct Field {
    name: String,
    data_type: DataType,
    is_nullable: bool,
    metadata: BTreeMap<String, String>,
}

/// The dictionary ids beside a field and those below it.
struct Ids {
    own: Option<i64>,
    below: Vec<Ids>,
}

struct Schema {
    fields: Vec<Field>,
    metadata: BTreeMap<String, String>,
}

// ---- the schema

fn field(name: &str, data_type: DataType) -> Field {
    let metadata = BTreeMap::from([("unit".to_string(), "metre".to_string())]);
    Field { name: name.to_string(), data_type, is_nullable: true, metadata }
}

fn column() -> Field {
    let middle = field("part", DataType::Struct(vec![field("length", DataType::Int32)]));
    field("piece", DataType::Struct(vec![middle]))
}

fn schema_of(fields: usize) -> Schema {
    Schema { fields: (0..fields.div_ceil(LEVELS)).map(|_| column()).collect(), metadata: BTreeMap::new() }
}

// ---- reading

fn bytes_at<const N: usize>(bytes: &[u8], at: usize) -> Option<[u8; N]> {
    bytes.get(at..at.checked_add(N)?)?.try_into().ok()
}

fn u16_at(bytes: &[u8], at: usize) -> Option<u16> {
    Some(u16::from_le_bytes(bytes_at(bytes, at)?))
}

fn u32_at(bytes: &[u8], at: usize) -> Option<u32> {
    Some(u32::from_le_bytes(bytes_at(bytes, at)?))
}

fn referred(bytes: &[u8], at: usize) -> Option<usize> {
    at.checked_add(u32_at(bytes, at)? as usize)
}

#[derive(Clone, Copy)]
struct Table<'a> {
    bytes: &'a [u8],
    place: usize,
    vtable: usize,
    slots: usize,
}

impl<'a> Table<'a> {
    fn at(bytes: &'a [u8], place: usize) -> Option<Table<'a>> {
        let back = i32::from_le_bytes(bytes_at(bytes, place)?);
        let vtable = usize::try_from(place as i64 - i64::from(back)).ok()?;
        let len = usize::from(u16_at(bytes, vtable)?);
        if len < 4 || vtable + len > bytes.len() || place + usize::from(u16_at(bytes, vtable + 2)?) > bytes.len() {
            return None;
        }
        Some(Table { bytes, place, vtable, slots: (len - 4) / 2 })
    }

    /// Where a slot's value stands: nothing of a table that is broken, and no place of an absent slot.
    fn slot(&self, slot: usize) -> Option<Option<usize>> {
        if slot >= self.slots {
            return Some(None);
        }
        match u16_at(self.bytes, self.vtable + 4 + 2 * slot)? {
            0 => Some(None),
            offset => Some(Some(self.place + usize::from(offset))),
        }
    }

    fn number<const N: usize>(&self, slot: usize) -> Option<[u8; N]> {
        match self.slot(slot)? {
            Some(at) => bytes_at(self.bytes, at),
            None => Some([0; N]),
        }
    }

    fn table(&self, slot: usize) -> Option<Option<Table<'a>>> {
        match self.slot(slot)? {
            Some(at) => Some(Some(Table::at(self.bytes, referred(self.bytes, at)?)?)),
            None => Some(None),
        }
    }

    fn text(&self, slot: usize) -> Option<&'a str> {
        let at = referred(self.bytes, self.slot(slot)??)?;
        let len = u32_at(self.bytes, at)? as usize;
        str::from_utf8(self.bytes.get(at + 4..at + 4 + len)?).ok()
    }

    /// Where the references of a vector begin, and how many they are.
    fn vector(&self, slot: usize) -> Option<Option<(usize, usize)>> {
        let Some(at) = self.slot(slot)? else { return Some(None) };
        let at = referred(self.bytes, at)?;
        let count = u32_at(self.bytes, at)? as usize;
        self.bytes.get(at + 4..at + 4 + 4 * count)?;
        Some(Some((at + 4, count)))
    }
}

fn pairs(table: &Table<'_>, slot: usize) -> Option<BTreeMap<String, String>> {
    let mut found = BTreeMap::new();
    if let Some((place, count)) = table.vector(slot)? {
        for k in 0..count {
            let pair = Table::at(table.bytes, referred(table.bytes, place + 4 * k)?)?;
            found.insert(pair.text(0)?.to_string(), pair.text(1)?.to_string());
        }
    }
    Some(found)
}

fn field_in(table: &Table<'_>, levels: usize, left: &mut usize) -> Option<(Field, Ids)> {
    if levels == 0 || *left == 0 {
        return None;
    }
    *left -= 1;
    let name = table.text(0)?.to_string();
    let is_nullable = table.number::<1>(1)? != [0];
    let type_table = table.table(3)??;
    let (data_type, below) = match table.number::<1>(2)?[0] {
        INT => {
            let (bits, is_signed) = (i32::from_le_bytes(type_table.number(0)?), type_table.number::<1>(1)?);
            if bits != 32 || is_signed == [0] {
                return None;
            }
            (DataType::Int32, Vec::new())
        }
        STRUCT => {
            let (fields, below) = fields_in(table, 5, levels - 1, left)?;
            (DataType::Struct(fields), below)
        }
        _ => return None,
    };
    let own = match table.table(4)? {
        Some(encoding) => Some(i64::from_le_bytes(encoding.number(0)?)),
        None => None,
    };
    let metadata = pairs(table, 6)?;
    Some((Field { name, data_type, is_nullable, metadata }, Ids { own, below }))
}

fn fields_in(table: &Table<'_>, slot: usize, levels: usize, left: &mut usize) -> Option<(Vec<Field>, Vec<Ids>)> {
    let (place, count) = table.vector(slot)??;
    let (mut fields, mut ids) = (Vec::new(), Vec::new());
    for k in 0..count {
        let child = Table::at(table.bytes, referred(table.bytes, place + 4 * k)?)?;
        let (field, beside) = field_in(&child, levels, left)?;
        fields.push(field);
        ids.push(beside);
    }
    Some((fields, ids))
}

fn schema_in(bytes: &[u8]) -> Option<(Schema, Vec<Ids>)> {
    let message = Table::at(bytes, referred(bytes, 0)?)?;
    if i16::from_le_bytes(message.number(0)?) != 4 || message.number::<1>(1)? != [1] {
        return None;
    }
    let header = message.table(2)??;
    if i16::from_le_bytes(header.number(0)?) != 0 {
        return None;
    }
    let mut left = bytes.len();
    let (fields, ids) = fields_in(&header, 1, MOST_LEVELS, &mut left)?;
    Some((Schema { fields, metadata: pairs(&header, 2)? }, ids))
}

// ---- writing

#[derive(Clone, Copy)]
enum Slot {
    Absent,
    Byte(u8),
    Short(i16),
    Int(i32),
    Long(i64),
    /// A reference, filled in when its object has a place.
    Refers,
}

#[derive(Default)]
struct Writer {
    out: Vec<u8>,
}

impl Writer {
    fn align(&mut self, step: usize) {
        self.out.resize(self.out.len().next_multiple_of(step), 0);
    }

    fn refer(&mut self, at: usize, target: usize) {
        self.out[at..at + 4].copy_from_slice(&((target - at) as u32).to_le_bytes());
    }

    /// A table: its place, and where each of its slots stands.
    fn table<const N: usize>(&mut self, slots: [Slot; N]) -> (usize, [usize; N]) {
        let vtable = self.out.len();
        let (mut places, mut size) = ([0; N], 4_usize);
        for (place, slot) in places.iter_mut().zip(&slots) {
            let width = match slot {
                Slot::Absent => continue,
                Slot::Byte(_) => 1,
                Slot::Short(_) => 2,
                Slot::Int(_) | Slot::Refers => 4,
                Slot::Long(_) => 8,
            };
            size = size.next_multiple_of(width);
            *place = size;
            size += width;
        }
        self.out.extend_from_slice(&((4 + 2 * N) as u16).to_le_bytes());
        self.out.extend_from_slice(&(size as u16).to_le_bytes());
        for place in places {
            self.out.extend_from_slice(&(place as u16).to_le_bytes());
        }
        self.align(8);
        let start = self.out.len();
        self.out.extend_from_slice(&((start - vtable) as u32).to_le_bytes());
        for (place, slot) in places.into_iter().zip(slots) {
            match slot {
                Slot::Absent => continue,
                _ => self.out.resize(start + place, 0),
            }
            match slot {
                Slot::Absent => {}
                Slot::Byte(n) => self.out.push(n),
                Slot::Short(n) => self.out.extend_from_slice(&n.to_le_bytes()),
                Slot::Int(n) => self.out.extend_from_slice(&n.to_le_bytes()),
                Slot::Long(n) => self.out.extend_from_slice(&n.to_le_bytes()),
                Slot::Refers => self.out.extend_from_slice(&[0; 4]),
            }
        }
        self.align(8);
        (start, places.map(|place| start + place))
    }

    fn text(&mut self, at: usize, text: &str) {
        self.out.extend_from_slice(&[0; 4]);
        let start = self.out.len();
        self.refer(at, start);
        self.out.extend_from_slice(&(text.len() as u32).to_le_bytes());
        self.out.extend_from_slice(text.as_bytes());
        self.out.push(0);
        self.align(8);
    }

    /// A vector of references, of which the first begins at the answer.
    fn vector(&mut self, at: usize, count: usize) -> usize {
        self.out.extend_from_slice(&[0; 4]);
        let start = self.out.len();
        self.refer(at, start);
        self.out.extend_from_slice(&(count as u32).to_le_bytes());
        self.out.resize(start + 4 + 4 * count, 0);
        self.align(8);
        start + 4
    }

    fn pairs(&mut self, at: usize, pairs: &BTreeMap<String, String>) {
        let place = self.vector(at, pairs.len());
        for (k, (key, value)) in pairs.iter().enumerate() {
            let (pair, slots) = self.table([Slot::Refers, Slot::Refers]);
            self.refer(place + 4 * k, pair);
            self.text(slots[0], key);
            self.text(slots[1], value);
        }
    }

    fn field(&mut self, at: usize, field: &Field, ids: &Ids) {
        let (tag, children): (u8, &[Field]) = match &field.data_type {
            DataType::Int32 => (INT, &[]),
            DataType::Struct(fields) => (STRUCT, fields),
        };
        let encoding = if ids.own.is_some() { Slot::Refers } else { Slot::Absent };
        let metadata = if field.metadata.is_empty() { Slot::Absent } else { Slot::Refers };
        let nullable = Slot::Byte(u8::from(field.is_nullable));
        let (table, slots) = self.table([Slot::Refers, nullable, Slot::Byte(tag), Slot::Refers, encoding, Slot::Refers, metadata]);
        self.refer(at, table);
        self.text(slots[0], &field.name);
        let type_table = match field.data_type {
            DataType::Int32 => self.table([Slot::Int(32), Slot::Byte(1)]).0,
            DataType::Struct(_) => self.table([]).0,
        };
        self.refer(slots[3], type_table);
        self.fields(slots[5], children, &ids.below);
        if !field.metadata.is_empty() {
            self.pairs(slots[6], &field.metadata);
        }
    }

    fn fields(&mut self, at: usize, fields: &[Field], ids: &[Ids]) {
        let place = self.vector(at, fields.len());
        for (k, (field, beside)) in fields.iter().zip(ids).enumerate() {
            self.field(place + 4 * k, field, beside);
        }
    }
}

fn written(schema: &Schema, ids: &[Ids]) -> Vec<u8> {
    let mut writer = Writer { out: vec![0; 8] };
    let (root, slots) = writer.table([Slot::Short(4), Slot::Byte(1), Slot::Refers, Slot::Long(0), Slot::Absent]);
    writer.refer(0, root);
    let metadata = if schema.metadata.is_empty() { Slot::Absent } else { Slot::Refers };
    let (header, below) = writer.table([Slot::Short(0), Slot::Refers, metadata, Slot::Absent]);
    writer.refer(slots[2], header);
    writer.fields(below[1], &schema.fields, ids);
    if !schema.metadata.is_empty() {
        writer.pairs(below[2], &schema.metadata);
    }
    writer.out
}

// ---- the jobs

fn no_ids(fields: &[Field]) -> Vec<Ids> {
    let below = |field: &Field| match &field.data_type {
        DataType::Int32 => Vec::new(),
        DataType::Struct(fields) => no_ids(fields),
    };
    fields.iter().map(|field| Ids { own: None, below: below(field) }).collect()
}

/// The least nanoseconds of some rounds, and the checksum, which each round answers.
fn timed(rounds: usize, job: &str, size: usize) -> (u128, usize) {
    let schema = schema_of(size);
    let ids = no_ids(&schema.fields);
    let bytes = written(&schema, &ids);
    let (mut least, mut checksum) = (u128::MAX, 0);
    for _ in 0..rounds {
        let start = Instant::now();
        checksum = match job {
            "read" => match schema_in(black_box(&bytes)) {
                Some(found) if found.0.fields.len() == schema.fields.len() => {
                    black_box(&found);
                    bytes.len()
                }
                _ => fail("the metadata is not read"),
            },
            "write" => black_box(written(black_box(&schema), &ids)).len(),
            "copy" => black_box(black_box(&bytes).clone()).len(),
            _ => fail("no such job"),
        };
        least = least.min(start.elapsed().as_nanos());
    }
    (least, checksum)
}

fn fail(what: &str) -> ! {
    eprintln!("{what}");
    process::exit(1)
}

fn main() {
    let words: Vec<String> = env::args().skip(1).collect();
    match words.as_slice() {
        [] => JOBS.iter().for_each(|job| println!("{job} {}", timed(1, job, SMALL).1)),
        [job, size] => {
            let size = size.parse().unwrap_or_else(|_| fail("a size is a number"));
            let (least, checksum) = timed(ROUNDS, job, size);
            println!("{job} {least} {checksum}");
        }
        _ => fail("plain_metadata [JOB SIZE]"),
    }
}
