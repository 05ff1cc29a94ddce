include!(concat!(env!("ORIGINAL"), "/encoding/presence.rs"));

/// Doors to what the original keeps to its crate or private.
pub mod access {
    pub fn count_set_bits(bitmap: &[u8], len: usize) -> usize {
        super::count_set_bits(bitmap, len)
    }

    pub fn present_position(bitmap: &[u8], row: usize) -> Option<usize> {
        super::present_position(bitmap, row)
    }

    pub fn presence_directory(bitmap: &[u8]) -> Vec<u32> {
        super::PresenceRank::new(bitmap).present_before_word
    }

    pub fn positions(bitmap: &[u8], rows: &[usize]) -> Vec<Option<usize>> {
        let rank = super::PresenceRank::new(bitmap);
        rows.iter().map(|&row| rank.position(bitmap, row)).collect()
    }

    pub fn load_word(bytes: &[u8]) -> u64 {
        super::load_word(bytes)
    }
}
