//! What the demonstration writes. A sheet is a press step, its pressure in mbar and the litres drawn; steps count from 1, so a sheet is blank only where the
//! probe is unplugged.

pub type Sheet = [u32; 3];

/// The sheets that the vault is opened with: yesterday's pressing.
pub const OPENED: [Sheet; 16] = [
    [1, 200, 388],
    [2, 200, 291],
    [3, 400, 250],
    [4, 400, 197],
    [5, 600, 166],
    [6, 600, 131],
    [7, 800, 104],
    [8, 800, 90],
    [9, 1000, 74],
    [10, 1000, 61],
    [11, 1200, 49],
    [12, 1400, 37],
    [13, 1600, 26],
    [14, 1800, 15],
    [15, 2000, 9],
    [16, 0, 4],
];

/// Today's sheets, each with the record it goes to. The last one corrects step 5.
pub const WRITTEN: [(u32, Sheet); 13] = [
    (0, [1, 200, 412]),
    (1, [2, 200, 305]),
    (2, [3, 400, 268]),
    (3, [4, 400, 214]),
    (4, [5, 600, 1173]),
    (5, [6, 600, 138]),
    (6, [7, 800, 117]),
    (7, [8, 800, 92]),
    (8, [9, 1000, 71]),
    (9, [10, 1200, 54]),
    (10, [11, 1400, 33]),
    (11, [12, 1600, 18]),
    (4, [5, 600, 173]),
];

/// The sheet that follows these, of a press whose probe is unplugged.
pub const UNPLUGGED: (u32, Sheet) = (12, [0, 0, 0]);

/// The sheet of step 13 when the probe is plugged in again, with the record that it is keyed to: 2, where 12 is meant.
pub const MISKEYED: (u32, Sheet) = (2, [13, 1800, 11]);

/// The record that is struck then: its sheet, yesterday's last, has no pressure.
pub const TO_STRIKE: u32 = 15;
