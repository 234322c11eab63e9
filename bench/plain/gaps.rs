/// The bandwidth allocation gaps, in milliseconds, rising.
pub const GAPS: [u16; 8] = [1, 2, 4, 8, 16, 32, 64, 128];
