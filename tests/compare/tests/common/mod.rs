//! Example J and the sides, for tests on every side.

use compare::calls::Side;
#[cfg(feature = "panel")]
use compare::sides::LIBRARY;
use compare::sides::{BY_LAST, FAST, SENTENCES};

pub const CHANGE: [u16; 3] = [4, 5, 3];
pub const RIDES: [[u16; 5]; 5] = [
    [0, 0, 1, 600, 620],
    [0, 1, 2, 625, 640],
    [1, 1, 2, 622, 650],
    [1, 2, 0, 655, 690],
    [2, 1, 2, 630, 642],
];

pub fn file(change: &[u16], rides: &[[u16; 5]]) -> Vec<u8> {
    let mut out = b"TTG".to_vec();
    let head = [1, change.len() as u16, rides.len() as u16];
    for n in head.iter().chain(change).chain(rides.iter().flatten()) {
        out.extend(n.to_le_bytes());
    }
    out
}

pub fn each(test: impl Fn(&'static Side)) {
    #[cfg(feature = "panel")]
    test(&LIBRARY);
    test(&FAST);
    test(&SENTENCES);
    test(&BY_LAST);
}
