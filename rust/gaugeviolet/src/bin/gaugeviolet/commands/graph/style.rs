//! How each of the twelve trains that a line has at most is told from the others: by its colour, and
//! without colour by its pattern of dashes.

use super::svg::Attribute;

/// Colours that differ much from each other and from white.
const COLOURS: [&str; 12] = [
    "#2800f0", "#dc3c28", "#508c00", "#000028", "#f028f0", "#b47800", "#00a0a0", "#640014",
    "#288cf0", "#503c00", "#786478", "#145050",
];

/// Dashes and the spaces between them, in pixels.
const DASHES: [&str; 12] = [
    "none",
    "14 4",
    "7 4",
    "3 3",
    "16 4 3 4",
    "8 3 3 3",
    "16 4 3 4 3 4",
    "8 3 3 3 3 3",
    "16 4 8 4",
    "24 6",
    "3 7",
    "24 4 3 4 3 4 3 4",
];

/// The colour of a train, by its number.
pub fn colour(train: u32) -> &'static &'static str {
    &COLOURS[train as usize - 1]
}

/// Colour and dashes of a train's line.
pub fn stroke(train: u32) -> [Attribute<'static>; 2] {
    [
        ("stroke", colour(train)),
        ("stroke-dasharray", &DASHES[train as usize - 1]),
    ]
}
