//! The eight data bytes 0xF7 to 0xFE and the three counts in them.
//!
//! The counts come as temperature, pressure, humidity; in the bytes pressure comes first.

pub const DATA: usize = 8;
pub const FRESH_BYTES: [u8; DATA] = [0x80, 0, 0, 0x80, 0, 0, 0x80, 0];
const COUNT_LIMITS: [u64; 3] = [1 << 20, 1 << 20, 1 << 16];
const SKIPPED_COUNTS: [u64; 3] = [0x80000, 0x80000, 0x8000];

/// Takes the counts out of the eight bytes: temperature, pressure, humidity.
/// The low nibbles of 0xF9 and 0xFC are disregarded.
pub fn counts(data: [u8; DATA]) -> [i64; 3] {
    let [p1, p2, p3, t1, t2, t3, h1, h2] = data.map(i64::from);
    [
        (t1 << 12) | (t2 << 4) | (t3 >> 4),
        (p1 << 12) | (p2 << 4) | (p3 >> 4),
        (h1 << 8) | h2,
    ]
}

/// Puts three counts into the eight bytes.
/// The low nibbles of 0xF9 and 0xFC are 0.
pub fn bytes(counts: [u64; 3]) -> [u8; DATA] {
    let [t, p, h] = counts;
    let byte = |value: u64| (value & 0xFF) as u8;
    [
        byte(p >> 12),
        byte(p >> 4),
        byte((p & 0x0F) << 4),
        byte(t >> 12),
        byte(t >> 4),
        byte((t & 0x0F) << 4),
        byte(h >> 8),
        byte(h),
    ]
}

/// Says whether three counts are within 20, 20 and 16 bits.
/// Those of skipped channels are asked too.
pub fn within_bits(counts: [u64; 3]) -> bool {
    counts
        .iter()
        .zip(COUNT_LIMITS)
        .all(|(count, limit)| *count < limit)
}

/// Gives the counts that a conversion of these codes stores.
/// A skipped channel, of code 0, stores 0x80000 or 0x8000.
pub fn stored(counts: [u64; 3], codes: [u8; 3]) -> [u64; 3] {
    let mut stored = counts;
    for channel in 0..3 {
        if codes[channel] == 0 {
            stored[channel] = SKIPPED_COUNTS[channel];
        }
    }
    stored
}
