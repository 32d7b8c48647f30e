//! "Sizes": the limits of document 01.

/// "Bytecode at most 65,536 bytes."
pub const MOST_BYTES: usize = 65_536;
/// "Rows 0 to 8,192."
pub const MOST_ROWS: usize = 8_192;
/// "Batch width 0 to 4,096."
pub const MOST_WIDTH: usize = 4_096;
/// "Cap: 0 to 256 kept failures."
pub const MOST_CAP: usize = 256;
/// "Report buffer: exactly three u64 per cap."
pub const RECORD_WORDS: usize = 3;
/// "Pool: at most 8,192 wires ..
pub const MOST_WIRES: usize = 8_192;
/// .. 8,192 gates ..
pub const MOST_GATES: usize = 8_192;
/// .. 16,384 mentions."
pub const MOST_MENTIONS: usize = 16_384;
