//! The two printers: document 01's LP2 and document 02's 6215 (#105). What
//! differs between their sheets and lines stands here.

use crate::sheet::{Grid, Pitch};

#[derive(Clone, Copy, PartialEq, Eq, Debug)]
pub enum Model {
    Lp2,
    M6215,
}

impl Model {
    pub const BOTH: [Model; 2] = [Model::Lp2, Model::M6215];

    /// 0 the LP2, 1 the 6215; no other number is a model's.
    pub fn of_number(number: u8) -> Option<Model> {
        Model::BOTH.get(usize::from(number)).copied()
    }

    pub fn number(self) -> u8 {
        match self {
            Model::Lp2 => 0,
            Model::M6215 => 1,
        }
    }

    /// The most lines that a form has.
    pub fn most_lines(self) -> u8 {
        match self {
            Model::Lp2 => 99,
            Model::M6215 => 112,
        }
    }

    /// Bytes in a row: 6,600 or 6,800 grid positions, eight to a byte.
    pub fn row_bytes(self) -> usize {
        match self {
            Model::Lp2 => 825,
            Model::M6215 => 850,
        }
    }

    /// Numbers in the line store: one a column, or one a grid position.
    pub fn line_store(self) -> usize {
        match self {
            Model::Lp2 => 2_200,
            Model::M6215 => 6_800,
        }
    }

    /// W, the positions of a text line: an LP2's columns, the 6215's grid
    /// positions.
    pub fn width(self, pitch: Pitch) -> usize {
        match (self, pitch) {
            (Model::Lp2, Pitch::Normal) => 1_320,
            (Model::Lp2, Pitch::Compressed) => 2_200,
            (Model::M6215, _) => 6_800,
        }
    }

    /// The positions that a column takes; its dot stands at the first of them.
    pub fn step(self, pitch: Pitch) -> usize {
        match self {
            Model::Lp2 => 1,
            Model::M6215 => pitch.apart(),
        }
    }

    /// Where a position stands: an LP2's column c at 5c in normal pitch, 3c in
    /// compressed; a 6215's position is a grid position.
    pub fn grid(self, position: usize, pitch: Pitch) -> Grid {
        match self {
            Model::Lp2 => Grid(pitch.apart() * position),
            Model::M6215 => Grid(position),
        }
    }
}
