include!(concat!(env!("ORIGINAL"), "/indexes/bitmap.rs"));

/// Doors to what the original keeps private.
pub mod access {
    use super::*;

    pub fn union(left: &RoaringRangeBitmap, right: &RoaringRangeBitmap) -> RoaringRangeBitmap {
        left.union(right)
    }

    /// A bitmap of the given runs, which are not looked at.
    pub fn bitmap(runs: Vec<RowRange>) -> RoaringRangeBitmap {
        RoaringRangeBitmap { runs }
    }

    pub fn entries(index: &BitmapIndex) -> &[(u64, RoaringRangeBitmap)] {
        &index.entries
    }

    pub fn entries_mut(index: &mut BitmapIndex) -> &mut Vec<(u64, RoaringRangeBitmap)> {
        &mut index.entries
    }
}
