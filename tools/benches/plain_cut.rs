//! The job of `tables cut` on streams of nullable 32-bit integers in plain Rust, to measure against: it decodes every batch into vectors
//! and encodes the window again. It trusts its input, and takes the canonical laying that `tables` writes.
//!
//!     plain_cut OFFSET LENGTH IN OUT

use std::{env, fs};

struct Column {
    values: Vec<i32>,
    validity: Option<Vec<u8>>,
}

struct Batch {
    columns: Vec<Column>,
    rows: usize,
}

fn u32_at(bytes: &[u8], place: usize) -> usize {
    u32::from_le_bytes(bytes[place..place + 4].try_into().unwrap()) as usize
}

fn u64_at(bytes: &[u8], place: usize) -> usize {
    u64::from_le_bytes(bytes[place..place + 8].try_into().unwrap()) as usize
}

/// Where the field of a slot of the table at `table` stands.
fn field(bytes: &[u8], table: usize, slot: usize) -> usize {
    let vtable = table - u32_at(bytes, table);
    let entry = vtable + 4 + 2 * slot;
    table + u16::from_le_bytes(bytes[entry..entry + 2].try_into().unwrap()) as usize
}

fn target(bytes: &[u8], place: usize) -> usize {
    place + u32_at(bytes, place)
}

/// The batch of a record batch message.
fn decode(metadata: &[u8], body: &[u8]) -> Batch {
    let root = target(metadata, 0);
    let header = target(metadata, field(metadata, root, 2));
    let nodes = target(metadata, field(metadata, header, 1));
    let buffers = target(metadata, field(metadata, header, 2)) + 4;
    let mut columns = Vec::new();
    let mut rows = 0;
    for k in 0..u32_at(metadata, nodes) {
        let node = nodes + 4 + 16 * k;
        rows = u64_at(metadata, node);
        let nulls = u64_at(metadata, node + 8);
        let validity = u64_at(metadata, buffers + 32 * k);
        let values = u64_at(metadata, buffers + 32 * k + 16);
        columns.push(Column {
            values: body[values..values + 4 * rows]
                .chunks_exact(4)
                .map(|v| i32::from_le_bytes(v.try_into().unwrap()))
                .collect(),
            validity: (nulls > 0).then(|| body[validity..validity + rows.div_ceil(8)].to_vec()),
        });
    }
    Batch { columns, rows }
}

fn is_valid(bits: &[u8], i: usize) -> bool {
    bits[i / 8] >> (i % 8) & 1 == 1
}

/// The metadata of a record batch message, laid as `tables` lays it.
fn metadata_of(rows: usize, nodes: &[(usize, usize)], buffers: &[(usize, usize)], body: usize) -> Vec<u8> {
    let mut out = Vec::new();
    let short = |out: &mut Vec<u8>, numbers: &[u16]| numbers.iter().for_each(|n| out.extend_from_slice(&n.to_le_bytes()));
    out.extend_from_slice(&[24, 0, 0, 0, 0, 0, 0, 0]);
    short(&mut out, &[14, 24, 4, 6, 8, 16, 0, 0]);
    out.extend_from_slice(&16u32.to_le_bytes());
    short(&mut out, &[4, 3]);
    out.extend_from_slice(&32u32.to_le_bytes());
    out.extend_from_slice(&[0; 4]);
    out.extend_from_slice(&(body as u64).to_le_bytes());
    short(&mut out, &[12, 24, 8, 16, 20, 0, 0, 0]);
    out.extend_from_slice(&16u64.to_le_bytes());
    out.extend_from_slice(&(rows as u64).to_le_bytes());
    out.extend_from_slice(&12u32.to_le_bytes());
    out.extend_from_slice(&(16 + 16 * nodes.len() as u32).to_le_bytes());
    for structs in [nodes, buffers] {
        out.extend_from_slice(&[0; 4]);
        out.extend_from_slice(&(structs.len() as u32).to_le_bytes());
        for (a, b) in structs {
            out.extend_from_slice(&(*a as u64).to_le_bytes());
            out.extend_from_slice(&(*b as u64).to_le_bytes());
        }
    }
    out
}

/// Appends a buffer and its padding, and answers where it stands and how long it is.
fn push_buffer(body: &mut Vec<u8>, content: &[u8]) -> (usize, usize) {
    let place = body.len();
    body.extend_from_slice(content);
    body.resize(body.len().next_multiple_of(64), 0);
    (place, content.len())
}

/// Appends a message with rows `start` to `end` of a batch.
fn encode(out: &mut Vec<u8>, batch: &Batch, start: usize, end: usize) {
    let rows = end - start;
    let (mut nodes, mut buffers, mut body) = (Vec::new(), Vec::new(), Vec::new());
    for column in &batch.columns {
        let mut values = Vec::with_capacity(4 * rows);
        let mut bitmap = Vec::new();
        let mut nulls = 0;
        match &column.validity {
            None => column.values[start..end].iter().for_each(|v| values.extend_from_slice(&v.to_le_bytes())),
            Some(bits) => {
                bitmap.resize(rows.div_ceil(8), 0u8);
                for (i, value) in column.values[start..end].iter().enumerate() {
                    let valid = is_valid(bits, start + i);
                    bitmap[i / 8] |= u8::from(valid) << (i % 8);
                    nulls += usize::from(!valid);
                    values.extend_from_slice(&(if valid { *value } else { 0 }).to_le_bytes());
                }
            }
        }
        nodes.push((rows, nulls));
        buffers.push(push_buffer(&mut body, if nulls > 0 { &bitmap } else { &[] }));
        buffers.push(push_buffer(&mut body, &values));
    }
    let metadata = metadata_of(rows, &nodes, &buffers, body.len());
    out.extend_from_slice(&[255; 4]);
    out.extend_from_slice(&(metadata.len() as u32).to_le_bytes());
    out.extend_from_slice(&metadata);
    out.extend_from_slice(&body);
}

fn main() {
    let words: Vec<String> = env::args().collect();
    let (offset, length): (usize, usize) = (words[1].parse().unwrap(), words[2].parse().unwrap());
    let bytes = fs::read(&words[3]).unwrap();
    let first = 8 + u32_at(&bytes, 4);
    let mut place = first;
    let mut batches = Vec::new();
    while u32_at(&bytes, place + 4) > 0 {
        let size = u32_at(&bytes, place + 4);
        let metadata = &bytes[place + 8..place + 8 + size];
        let body = u64_at(metadata, field(metadata, target(metadata, 0), 3));
        let at = place + 8 + size;
        batches.push(decode(metadata, &bytes[at..at + body]));
        place = at + body;
    }
    let mut out = bytes[..first].to_vec();
    drop(bytes);
    let (mut skipped, mut taken) = (0, 0);
    for batch in &batches {
        let begin = batch.rows.min(offset - skipped);
        let count = (batch.rows - begin).min(length - taken);
        if count > 0 {
            encode(&mut out, batch, begin, begin + count);
        }
        skipped += begin;
        taken += count;
    }
    out.extend_from_slice(&[255, 255, 255, 255, 0, 0, 0, 0]);
    fs::write(&words[4], out).unwrap();
}
