//! Budgets that tell whether all 64 bits count.

/// Ample for any walk of fewer than 256 places, each of them; and 0, 1 or negative in some
/// narrower kind of number.
pub const WIDE: [u64; 8] = [
    1 << 8,
    (1 << 16) + 1,
    1 << 31,
    1 << 32,
    (1 << 32) + 1,
    1 << 48,
    1 << 63,
    u64::MAX,
];
