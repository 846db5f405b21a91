//! Files of the tests on bytes that are worked out by hand: a chart and diagrams over it.

/// 5 stages from 0 to 4 with 6 steps.
pub const CHART: [u8; 75] = [
    0x01, 6, 0, 5, 0, 0, 0, 4, 0, //
    0x02, 8, 0, 0, 0, 1, 0, 40, 0, 0, 0, //
    0x02, 8, 0, 0, 0, 1, 0, 90, 0, 0, 0, //
    0x02, 8, 0, 1, 0, 2, 0, 200, 0, 0, 0, //
    0x02, 8, 0, 1, 0, 3, 0, 30, 0, 0, 0, //
    0x02, 8, 0, 2, 0, 3, 0, 20, 0, 0, 0, //
    0x02, 8, 0, 3, 0, 4, 0, 50, 0, 0, 0,
];
/// Step 0 needs step 2.
pub const NEEDS: [u8; 23] = [
    0x11, 2, 0, 3, 0, //
    0x12, 6, 0, 2, 0, 0, 0, 1, 0, //
    0x12, 6, 0, 0, 0, 1, 0, 2, 0,
];
pub const NO: [u8; 5] = [0x11, 2, 0, 0, 0];
pub const YES: [u8; 5] = [0x11, 2, 0, 1, 0];
