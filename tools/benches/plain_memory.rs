//! The jobs of `benches memory` in plain Rust, on the same data, to measure against. Each is done as a plain program would do it: by
//! words of 64 bits where bits are many, in memory of the size that the result has.
//!
//!     plain_memory JOB SIZE     the job, the least nanoseconds of its rounds, and the checksum
//!     plain_memory              each job at a small size: its name and the checksum alone

use std::hint::black_box;
use std::time::Instant;
use std::{env, process};

const ROUNDS: usize = 7;
const SMALL: usize = 10_000;
const JOBS: [&str; 9] = [
    "and_aligned",
    "and_offsets",
    "count_zeros",
    "extend_from_slice",
    "slices_runs",
    "slices_noise",
    "from_iter",
    "offsets",
    "zip_validity",
];

/// Bits from bit `offset` of some bytes on, and how many of them are not set.
struct Bitmap {
    bytes: Vec<u8>,
    offset: usize,
    len: usize,
    unset: usize,
}

fn mixed(place: u64) -> u64 {
    let number = place.wrapping_mul(0x9e37_79b9_7f4a_7c15);
    let number = (number ^ (number >> 30)).wrapping_mul(0xbf58_476d_1ce4_e5b9);
    let number = (number ^ (number >> 27)).wrapping_mul(0x94d0_49bb_1331_11eb);
    number ^ (number >> 31)
}

fn noise(place: u64, bits: usize) -> Vec<u8> {
    (0..bits as u64 / 64 + 2).flat_map(|k| mixed(place + k).to_le_bytes()).collect()
}

fn bitmap(bytes: Vec<u8>, offset: usize, len: usize) -> Bitmap {
    let unset = count_zeros(&bytes, offset, len);
    Bitmap { bytes, offset, len, unset }
}

fn runs(bits: usize) -> Bitmap {
    let mut bytes = vec![0u8; bits.div_ceil(8)];
    let mut place = 0;
    for k in 0..bits {
        let end = bits.min(place + (mixed(k as u64) % 256) as usize + 1);
        if k % 2 == 0 {
            (place..end).for_each(|i| bytes[i / 8] |= 1 << (i % 8));
        }
        place = end;
    }
    bitmap(bytes, 0, bits)
}

/// Up to 64 bits from a bit on.
fn part_at(bytes: &[u8], place: usize, len: usize) -> u64 {
    (0..len).fold(0, |word, i| word | u64::from(bytes[(place + i) / 8] >> ((place + i) % 8) & 1) << i)
}

fn numbers(bytes: &[u8]) -> impl Iterator<Item = u64> + Clone + '_ {
    bytes.chunks_exact(8).map(|chunk| u64::from_le_bytes(chunk.try_into().unwrap()))
}

/// The words of some bits, each of two neighbours among the numbers of the bytes; the last one is filled with zeros.
fn words(bytes: &[u8], offset: usize, len: usize) -> impl Iterator<Item = u64> + '_ {
    let (first, shift) = (offset / 8, offset % 8);
    let count = ((bytes.len() - first) / 8).saturating_sub(1).min(len / 64);
    let numbers = numbers(&bytes[first..]);
    let pairs = numbers.clone().zip(numbers.skip(1)).take(count);
    let rest = (count..len.div_ceil(64)).map(move |k| part_at(bytes, offset + 64 * k, (len - 64 * k).min(64)));
    pairs.map(move |(low, high)| low >> shift | high << 1 << (63 - shift)).chain(rest)
}

/// Counts the bits of the whole bytes, and takes those off that stand before and behind.
fn count_zeros(bytes: &[u8], offset: usize, len: usize) -> usize {
    let end = offset + len;
    let whole = &bytes[offset / 8..end.div_ceil(8)];
    let (Some(first), Some(last)) = (whole.first(), whole.last()) else {
        return 0;
    };
    let words: usize = numbers(whole).map(|word| word.count_ones() as usize).sum();
    let behind: usize = whole.chunks_exact(8).remainder().iter().map(|byte| byte.count_ones() as usize).sum();
    let before = first & !(u8::MAX << (offset % 8));
    let after = if end % 8 == 0 { 0 } else { last >> (end % 8) };
    len - (words + behind - before.count_ones() as usize - after.count_ones() as usize)
}

fn lay(words: impl Iterator<Item = u64>, out: &mut [u8]) {
    out.chunks_exact_mut(8).zip(words).for_each(|(place, word)| place.copy_from_slice(&word.to_le_bytes()));
}

/// A bitmap of the first bits of words.
fn collected(words: impl Iterator<Item = u64>, len: usize) -> Bitmap {
    let mut bytes = vec![0; len.div_ceil(64) * 8];
    lay(words, &mut bytes);
    bytes.truncate(len.div_ceil(8));
    bitmap(bytes, 0, len)
}

/// Where both begin with a byte the words are read straight.
fn and(left: &Bitmap, right: &Bitmap) -> Bitmap {
    let len = left.len;
    if left.offset % 8 == 0 && right.offset % 8 == 0 {
        let count = len.div_ceil(8);
        let (a, b) = (&left.bytes[left.offset / 8..][..count], &right.bytes[right.offset / 8..][..count]);
        let mut bytes: Vec<u8> = a.iter().zip(b).map(|(a, b)| a & b).collect();
        if len % 8 > 0 {
            bytes[count - 1] &= u8::MAX >> (8 - len % 8);
        }
        return bitmap(bytes, 0, len);
    }
    let pairs = words(&left.bytes, left.offset, len).zip(words(&right.bytes, right.offset, len));
    collected(pairs.map(|(a, b)| a & b), len)
}

/// Five set bits, and `len` bits from bit 3 on behind them.
fn extended(bytes: &[u8], len: usize) -> Vec<u8> {
    let head = len.min(3);
    let mut out = vec![0; 1 + (len - head).div_ceil(64) * 8];
    out[0] = 31 | (part_at(bytes, 3, head) << 5) as u8;
    lay(words(bytes, 3 + head, len - head), &mut out[1..]);
    out.truncate((5 + len).div_ceil(8));
    out
}

/// The maximal runs of set bits, each as its start and its length.
struct Runs<W> {
    words: W,
    // the bits of the word that is walked, of which `left` are left
    word: u64,
    left: usize,
    place: usize,
    len: usize,
}

impl<W: Iterator<Item = u64>> Runs<W> {
    /// Passes the bits of a value that come next.
    fn skip(&mut self, value: bool) {
        loop {
            let same = if value { self.word.trailing_ones() } else { self.word.trailing_zeros() };
            let same = (same as usize).min(self.left);
            self.place += same;
            self.left -= same;
            if self.left > 0 {
                self.word >>= same;
                return;
            }
            match self.words.next() {
                Some(word) => (self.word, self.left) = (word, 64.min(self.len - self.place)),
                None => return,
            }
        }
    }
}

impl<W: Iterator<Item = u64>> Iterator for Runs<W> {
    type Item = (usize, usize);

    fn next(&mut self) -> Option<(usize, usize)> {
        self.skip(false);
        let start = self.place;
        self.skip(true);
        (self.place > start).then(|| (start, self.place - start))
    }
}

fn from_iter(bits: impl ExactSizeIterator<Item = bool>) -> Bitmap {
    let len = bits.len();
    let mut bytes = Vec::with_capacity(len.div_ceil(64) * 8);
    let (mut word, mut count) = (0u64, 0);
    for bit in bits {
        word |= u64::from(bit) << count;
        count += 1;
        if count == 64 {
            bytes.extend_from_slice(&word.to_le_bytes());
            (word, count) = (0, 0);
        }
    }
    bytes.extend_from_slice(&word.to_le_bytes());
    bytes.truncate(len.div_ceil(8));
    bitmap(bytes, 0, len)
}

fn offsets(lengths: impl ExactSizeIterator<Item = usize>) -> Option<Vec<i32>> {
    let mut offsets = Vec::with_capacity(lengths.len() + 1);
    let mut last = 0usize;
    offsets.push(0);
    for length in lengths {
        last = last.checked_add(length)?;
        offsets.push(i32::try_from(last).ok()?);
    }
    Some(offsets)
}

/// The bits one at a time.
fn bits(bitmap: &Bitmap) -> impl Iterator<Item = bool> + '_ {
    (bitmap.offset..bitmap.offset + bitmap.len).map(|i| bitmap.bytes[i / 8] >> (i % 8) & 1 == 1)
}

fn valid_sum(values: &[u32], validity: &Bitmap) -> u64 {
    let zipped = values.iter().zip(bits(validity)).map(|(value, valid)| valid.then_some(value));
    zipped.flatten().fold(0, |sum: u64, value| sum.wrapping_add(u64::from(*value)))
}

fn checksum(numbers: impl Iterator<Item = u64>) -> u64 {
    numbers.fold(0, |sum: u64, number| sum.wrapping_mul(31).wrapping_add(number))
}

fn bytes_checksum(bytes: &[u8]) -> u64 {
    checksum(bytes.iter().map(|byte| u64::from(*byte)))
}

fn bitmap_checksum(bitmap: &Bitmap) -> u64 {
    bytes_checksum(&bitmap.bytes).wrapping_add(bitmap.unset as u64)
}

fn runs_checksum(bitmap: &Bitmap) -> u64 {
    let words = words(&bitmap.bytes, bitmap.offset, bitmap.len);
    let runs = Runs { words, word: 0, left: 0, place: 0, len: bitmap.len };
    runs.fold(0, |sum: u64, (start, count)| sum.wrapping_add(start as u64) ^ count as u64)
}

fn timed<T>(rounds: usize, job: impl Fn() -> T, checksum: impl Fn(&T) -> u64) -> (u128, u64) {
    let (mut least, mut last) = (u128::MAX, 0);
    for _ in 0..rounds {
        let start = Instant::now();
        let made = black_box(job());
        least = least.min(start.elapsed().as_nanos());
        last = checksum(&made);
    }
    (least, last)
}

fn run(job: &str, size: usize, rounds: usize) -> (u128, u64) {
    let chances = || (0..size as u64).map(mixed);
    let and_at = |a: usize, b: usize| {
        let (left, right) = (bitmap(noise(0, size), a, size), bitmap(noise(1 << 32, size), b, size));
        timed(rounds, || and(black_box(&left), black_box(&right)), bitmap_checksum)
    };
    match job {
        "and_aligned" => and_at(0, 0),
        "and_offsets" => and_at(1, 3),
        "count_zeros" => {
            let bytes = noise(0, size);
            timed(rounds, || count_zeros(black_box(&bytes), 3, size), |zeros| *zeros as u64)
        }
        "extend_from_slice" => {
            let bytes = noise(0, size);
            timed(rounds, || extended(black_box(&bytes), size), |bytes| bytes_checksum(bytes))
        }
        "slices_runs" | "slices_noise" => {
            let bits = if job == "slices_runs" { runs(size) } else { bitmap(noise(0, size), 0, size) };
            timed(rounds, || runs_checksum(black_box(&bits)), |sum| *sum)
        }
        "from_iter" => {
            let booleans: Vec<bool> = chances().map(|number| number % 2 == 1).collect();
            timed(rounds, || from_iter(black_box(&booleans).iter().copied()), bitmap_checksum)
        }
        "offsets" => {
            let lengths: Vec<usize> = chances().map(|number| (number % 100) as usize).collect();
            let sum = |offsets: &Option<Vec<i32>>| checksum(offsets.iter().flatten().map(|offset| *offset as u64));
            timed(rounds, || offsets(black_box(&lengths).iter().copied()), sum)
        }
        "zip_validity" => {
            let values: Vec<u32> = chances().map(|number| (number % 0x1_0000) as u32).collect();
            let validity = bitmap(noise(0, size), 0, size);
            timed(rounds, || valid_sum(black_box(&values), black_box(&validity)), |sum| *sum)
        }
        _ => {
            eprintln!("a name of no job");
            process::exit(1)
        }
    }
}

fn main() {
    let words: Vec<String> = env::args().skip(1).collect();
    match words.as_slice() {
        [] => JOBS.iter().for_each(|job| println!("{job} {}", run(job, SMALL, 1).1)),
        [job, size] => {
            let (nanoseconds, checksum) = run(job, size.parse().unwrap(), ROUNDS);
            println!("{job} {nanoseconds} {checksum}")
        }
        _ => process::exit(1),
    }
}
