//! Requests that several tests take.
#![allow(dead_code)]

/// File A of the format.
pub const FILE_A: [u8; 48] = [
    4, 3, 3, 3, 5, 7, 3, 1, 2, 0, 1, 6, 1, 0, 2, 4, 0, 3, 0, 0, 1, 1, 3, 2, 1, 2, 1, 0, 0, 0, 2, 0, 255, 2, 1, 1, 0, 2, 1, 2, 1, 0, 0, 0,
    1, 7, 1, 2,
];

/// Looks at 127 fluents and makes them unknown again, over and over: a walk that goes as deep as any, to within a few bytes.
pub fn deep() -> Vec<u8> {
    let effects = (0..254).flat_map(|literal| [1, literal, 1, 255 - literal % 2]);
    let knowledge = (0..127).flat_map(|fluent| [0, fluent]);
    let table = [128, 2, 0, 254].into_iter().chain(effects).chain([2, 0, 0, 1, 0, 127]).chain(knowledge);
    table.chain([4, 0]).chain([0, 1].repeat(512)).chain([0, 0]).collect()
}
