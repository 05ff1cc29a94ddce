//! The original's operations over slices. Run lists are words: start, end, start, end. Those that are handed to `union` and its like must be
//! valid: the original takes no others. Errors are document 01's numbers.
use crate::encoding::presence::access as presence;
use crate::error::FormatError;
use crate::file::bytes::Reader;
use crate::indexes::bitmap::{BitmapIndex, RoaringRangeBitmap, RowRange, access};
use crate::indexes::rank_select::{BitRankDirectory, RankSelect, access as ranks};

/// Up to so many rows an insertion of runs is given to the original as rows.
const FEW_ROWS: u64 = 4096;

fn number(error: FormatError) -> u64 {
    match error {
        FormatError::Truncated { .. } => 2,
        FormatError::Structural { rule: "bitmap run must be non-empty" } => 3,
        FormatError::Structural { rule: "bitmap runs must be sorted and non-adjacent" } => 4,
        FormatError::Structural { rule: "bitmap index values must be sorted and unique" } => 5,
        other => panic!("an error without a number: {other:?}"),
    }
}

fn bitmap(words: &[u64]) -> RoaringRangeBitmap {
    access::bitmap(ranges(words))
}

fn ranges(words: &[u64]) -> Vec<RowRange> {
    words.chunks_exact(2).map(|pair| RowRange { start: pair[0], end: pair[1] }).collect()
}

fn words(bitmap: &RoaringRangeBitmap) -> Vec<u64> {
    bitmap.ranges().iter().flat_map(|run| [run.start, run.end]).collect()
}

// ---- bytes

pub fn u32_at(bytes: &[u8], at: usize) -> Result<u32, u64> {
    let mut reader = Reader::new(bytes);
    reader.take(at, "").map_err(|error| number(error.into()))?;
    reader.u32("").map_err(|error| number(error.into()))
}

pub fn u64_at(bytes: &[u8], at: usize) -> Result<u64, u64> {
    let mut reader = Reader::new(bytes);
    reader.take(at, "").map_err(|error| number(error.into()))?;
    reader.u64("").map_err(|error| number(error.into()))
}

pub fn load_word(bytes: &[u8]) -> u64 {
    presence::load_word(bytes)
}

// ---- run lists

pub fn union(left: &[u64], right: &[u64]) -> Vec<u64> {
    words(&access::union(&bitmap(left), &bitmap(right)))
}

pub fn intersect(left: &[u64], right: &[u64]) -> Vec<u64> {
    words(&bitmap(left).intersect(&bitmap(right)))
}

pub fn difference(left: &[u64], right: &[u64]) -> Vec<u64> {
    words(&bitmap(left).difference(&bitmap(right)))
}

pub fn contains(runs: &[u64], row: u64) -> bool {
    bitmap(runs).contains(row)
}

/// The original's `contains` has the number that its search finds and does not give it. Those runs are the ones that its intersection with the rows up to
/// `row` leaves something of. All rows are below 2^64 - 1, so those up to 2^64 - 2 are all.
pub fn begun(runs: &[u64], row: u64) -> usize {
    intersect(runs, &[0, row.saturating_add(1)]).len() / 2
}

pub fn count(runs: &[u64]) -> u64 {
    bitmap(runs).count()
}

/// What `ranges()` gives of a run list, as words.
pub fn records(runs: &[u64]) -> Vec<u64> {
    words(&bitmap(runs))
}

/// The original has no neighbours; its rank and select give them. The nearest row at or above has as many listed rows below it as `row` has, and the nearest
/// at or below is the last of those up to `row`. All rows are below 2^64 - 1, so rank there counts all.
pub fn neighbours(runs: &[u64], row: u64) -> (Option<u64>, Option<u64>) {
    let over = RankSelect::from_bitmap(&bitmap(runs));
    let below = over.rank(row.saturating_add(1)).checked_sub(1).and_then(|number| over.select(number));
    (over.select(over.rank(row)), below)
}

/// Nor does it find runs by a range, which may not be empty here. The first row of the list's intersection with the range is in the last run of its
/// intersection with the rows up to that row, and the runs of this are counted.
pub fn first_overlap(runs: &[u64], start: u64, end: u64) -> Option<u64> {
    let first = intersect(runs, &[start, end]).first().copied()?;
    Some(intersect(runs, &[0, first + 1]).len() as u64 / 2 - 1)
}

pub fn decode_block(block: &[u8]) -> Result<Vec<u64>, u64> {
    Ok(words(&RoaringRangeBitmap::decode(block).map_err(number)?))
}

pub fn encode_block(runs: &[u64]) -> Vec<u8> {
    bitmap(runs).encode()
}

pub fn from_rows(rows: &[u64]) -> Vec<u64> {
    words(&RoaringRangeBitmap::from_rows(rows.iter().copied()))
}

pub fn from_ranges(pairs: &[u64]) -> Vec<u64> {
    words(&RoaringRangeBitmap::from_ranges(ranges(pairs)))
}

pub fn from_packed_bits(bits: &[u8]) -> Vec<u64> {
    words(&RoaringRangeBitmap::from_packed_bits(bits))
}

// ---- indexes

/// An index that the original has read.
pub struct Index(BitmapIndex);

impl Index {
    pub fn decode(index: &[u8]) -> Result<Index, u64> {
        Ok(Index(BitmapIndex::decode(index).map_err(number)?))
    }

    pub fn encode(&self) -> Vec<u8> {
        self.0.encode()
    }

    pub fn entries(&self) -> usize {
        self.0.len()
    }

    /// The runs of all entries.
    pub fn runs(&self) -> usize {
        access::entries(&self.0).iter().map(|(_, bitmap)| bitmap.ranges().len()).sum()
    }

    pub fn bitmap(&self, value: u64) -> Option<Vec<u64>> {
        self.0.bitmap(value).map(words)
    }

    pub fn has(&self, value: u64) -> bool {
        self.0.bitmap(value).is_some()
    }

    pub fn intersect_values(&self, values: &[u64]) -> Vec<u64> {
        words(&self.0.intersect_values(values))
    }

    /// The original inserts rows. A list of too many rows goes in by the same union, through `access`.
    pub fn insert(&mut self, value: u64, runs: &[u64]) {
        let added = bitmap(runs);
        if added.count() <= FEW_ROWS {
            let rows = added.ranges().iter().flat_map(|run| run.start..run.end);
            self.0.insert(value, rows);
            return;
        }
        match self.0.bitmap(value).cloned() {
            None => {
                self.0.insert(value, []);
                self.set(value, added);
            }
            Some(old) => self.set(value, access::union(&old, &added)),
        }
    }

    /// The original does not merge indexes. Each entry of the other one is inserted, one without runs too.
    pub fn merge(&mut self, other: &Index) {
        for (value, bitmap) in access::entries(&other.0) {
            self.insert(*value, &words(bitmap));
        }
    }

    fn set(&mut self, value: u64, bitmap: RoaringRangeBitmap) {
        for entry in access::entries_mut(&mut self.0) {
            if entry.0 == value {
                entry.1 = bitmap.clone();
            }
        }
    }

    /// The rows that a list of steps keeps, by the original's operations: 1 take, 2 and, 3 or, 4 without.
    pub fn filter(&self, steps: &[u64]) -> Vec<u64> {
        let none = RoaringRangeBitmap::default();
        let mut kept = RoaringRangeBitmap::default();
        for step in steps.chunks_exact(2) {
            let named = self.0.bitmap(step[1]).unwrap_or(&none);
            kept = match step[0] {
                1 => named.clone(),
                2 => kept.intersect(named),
                3 => access::union(&kept, named),
                4 => kept.difference(named),
                kind => panic!("step kind {kind}"),
            };
        }
        words(&kept)
    }
}

// ---- rank and select over runs

/// The original's `cumulative`, and then its `total()`.
pub fn run_directory(runs: &[u64]) -> Vec<u64> {
    let over = RankSelect::from_bitmap(&bitmap(runs));
    [ranks::cumulative(&over), &[over.total()]].concat()
}

pub fn run_rank(runs: &[u64], positions: &[u64]) -> Vec<u64> {
    let over = RankSelect::from_bitmap(&bitmap(runs));
    positions.iter().map(|&position| over.rank(position)).collect()
}

pub fn run_select(runs: &[u64], positions: &[u64]) -> Vec<Option<u64>> {
    let over = RankSelect::from_bitmap(&bitmap(runs));
    positions.iter().map(|&position| over.select(position)).collect()
}

pub fn run_rank_and_contains(runs: &[u64], positions: &[u64]) -> Vec<(u64, bool)> {
    let over = RankSelect::from_bitmap(&bitmap(runs));
    positions.iter().map(|&position| over.rank_and_contains(position)).collect()
}

// ---- packed bits

pub fn bit_directory(bits: &[u8], len: usize) -> Vec<u64> {
    ranks::superblocks(&BitRankDirectory::new(bits, len)).to_vec()
}

pub fn bit_rank(bits: &[u8], len: usize, positions: &[u64]) -> Vec<u64> {
    let over = BitRankDirectory::new(bits, len);
    positions.iter().map(|&position| over.rank(position as usize)).collect()
}

pub fn bit_count_range(bits: &[u8], len: usize, pairs: &[u64]) -> Vec<u64> {
    let over = BitRankDirectory::new(bits, len);
    pairs.chunks_exact(2).map(|pair| over.count_range(pair[0] as usize, pair[1] as usize)).collect()
}

pub fn bit_total(bits: &[u8], len: usize) -> u64 {
    BitRankDirectory::new(bits, len).total()
}

/// The original has no select over packed bits: its select over its runs of the bits below `len`.
pub fn bit_select(bits: &[u8], len: usize, ks: &[u64]) -> Vec<Option<u64>> {
    let len = len.min(8 * bits.len());
    let mut below = bits[..len.div_ceil(8)].to_vec();
    if len % 8 != 0 {
        below[len / 8] &= (1 << (len % 8)) - 1;
    }
    let over = RankSelect::from_bitmap(&RoaringRangeBitmap::from_packed_bits(&below));
    ks.iter().map(|&k| over.select(k)).collect()
}

pub fn count_set_bits(bits: &[u8], len: usize) -> u64 {
    presence::count_set_bits(bits, len) as u64
}

pub fn present_position(bits: &[u8], row: u64) -> Option<u64> {
    presence::present_position(bits, row as usize).map(|position| position as u64)
}

pub fn presence_directory(bits: &[u8]) -> Vec<u32> {
    presence::presence_directory(bits)
}

pub fn position(bits: &[u8], rows: &[u64]) -> Vec<Option<u64>> {
    let rows: Vec<usize> = rows.iter().map(|&row| row as usize).collect();
    presence::positions(bits, &rows).into_iter().map(|position| position.map(|position| position as u64)).collect()
}
