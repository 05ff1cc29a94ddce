//! From bytes to rows: an index of bales by stand and moisture band, a filter over it, and rank and select on the rows that it keeps.
use mudcanvas::index::{self, Step};
use mudcanvas::{Refusal, build, rank, some};

fn main() -> Result<(), Refusal> {
    // run lists: from rows in any order, and from ranges
    let rows = [8, 0, 1, 7, 2, 3, 6];
    let mut stand = vec![0; build::from_rows_bound(rows.len())];
    let n = build::from_rows(&rows, &mut stand)?;
    stand.truncate(n);
    println!("stand 3: {}", text(&stand));

    let ranges = [2, 7];
    let mut band = vec![0; build::from_ranges_bound(ranges.len())];
    let n = build::from_ranges(&ranges, &mut band)?;
    band.truncate(n);
    println!("band 7: {}", text(&band));

    // an index of both values: each insert writes a new one
    let first = inserted(&index::EMPTY, 3, &stand)?;
    let bales = inserted(&first, 7, &band)?;
    let counts = index::decode(&bales)?;
    println!("index: {} bytes, {} values, {} runs", bales.len(), counts.entries, counts.runs);

    // the bales of stand 3 that are not in band 7
    let need = index::filter_bound(counts.runs);
    let (mut kept, mut scratch) = (vec![0; need], vec![0; need]);
    let n = index::filter(&bales, Step::words(&[Step::Take(3), Step::Without(7)]), &mut kept, &mut scratch)?;
    kept.truncate(n);
    println!("kept: {}", text(&kept));

    // rank and select, by the directory of the kept rows
    let mut directory = vec![0; rank::directory_bound(kept.len())];
    let n = rank::directory(&kept, &mut directory)?;
    println!("kept rows: {}", directory[n - 1]);
    let mut below = [0; rank::rank_bound(1)];
    rank::rank(&kept, &directory, &[8], &mut below)?;
    println!("kept rows below row 8: {}", below[0]);
    let mut selected = [0; rank::select_bound(2)];
    rank::select(&kept, &directory, &[3, 4], &mut selected)?;
    for (k, row) in [3, 4].into_iter().zip(selected) {
        println!("kept row number {k}: {}", some(row).map_or("none".to_string(), |row| row.to_string()));
    }

    // runs that touch are refused: they are to be given as one run
    if let Err(refusal) = inserted(&bales, 9, &[0, 3, 3, 5]) {
        println!("refused with {}: {refusal}", refusal.number());
    }
    Ok(())
}

/// The index with runs added to a value.
fn inserted(bytes: &[u8], value: u64, runs: &[u64]) -> Result<Vec<u8>, Refusal> {
    let mut out = vec![0; index::insert_bound(bytes.len(), runs.len())];
    let n = index::insert(bytes, value, runs, &mut out)?;
    out.truncate(n);
    Ok(out)
}

/// A run list as start-end, start-end.
fn text(runs: &[u64]) -> String {
    runs.chunks(2).map(|run| format!("{}-{}", run[0], run[1])).collect::<Vec<_>>().join(" ")
}
