include!(concat!(env!("ORIGINAL"), "/indexes/rank_select.rs"));

/// Doors to private fields.
pub mod access {
    use super::*;

    pub fn cumulative(ranks: &RankSelect) -> &[u64] {
        &ranks.cumulative
    }

    pub fn superblocks<'a>(directory: &'a BitRankDirectory<'_>) -> &'a [u64] {
        &directory.superblocks
    }
}
