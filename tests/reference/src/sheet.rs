//! Document 01, "The sheet": lines, rows, grid positions, and striking; with
//! document 02's margins (#105).

use crate::model::Model;

/// A line number, from 1.
#[derive(Clone, Copy, PartialEq, Eq, PartialOrd, Ord, Debug)]
pub struct Line(pub u8);

/// A row of dots on the form, from 0.
#[derive(Clone, Copy, PartialEq, Eq, PartialOrd, Ord, Debug)]
pub struct Row(pub u32);

/// A grid position in a row, from 0.
#[derive(Clone, Copy, PartialEq, Eq, Debug)]
pub struct Grid(pub usize);

/// Wires of the head, and so the rows that a struck line covers.
pub const WIRES: u32 = 9;

/// The bit of wire 9, the bottom one.
pub const WIRE_9: u16 = wire_bit(9);

/// Wire 1 (top) is bit 8, wire 9 is bit 0.
pub const fn wire_bit(wire: u32) -> u16 {
    1 << (WIRES - wire)
}

/// A form of a model: L lines at 6 or 8 an inch, and its margins.
#[derive(Clone, Copy, PartialEq, Eq, Debug)]
pub struct Form {
    pub model: Model,
    pub lines: u8,
    pub spacing: u8,
    /// N2, the line at which the form starts.
    pub top: Line,
    /// N3, the last line of print.
    pub bottom: Line,
}

impl Form {
    /// Margins open as 1 and L.
    pub fn opened(model: Model, lines: u8, spacing: u8) -> Form {
        Form {
            model,
            lines,
            spacing,
            top: Line(1),
            bottom: Line(lines),
        }
    }

    pub fn lines_allowed(self) -> bool {
        (1..=self.model.most_lines()).contains(&self.lines)
    }

    pub fn spacing_allowed(self) -> bool {
        matches!(self.spacing, 6 | 8)
    }

    /// 1 ≤ N2 ≤ N3 ≤ L; an LP2 has no margins but 1 and L.
    fn margins_allowed(self) -> bool {
        match self.model {
            Model::Lp2 => (self.top, self.bottom) == (Line(1), Line(self.lines)),
            Model::M6215 => {
                Line(1) <= self.top && self.top <= self.bottom && self.bottom <= Line(self.lines)
            }
        }
    }

    pub fn is_allowed(self) -> bool {
        self.lines_allowed() && self.spacing_allowed() && self.margins_allowed()
    }

    /// R: 72 rows an inch, shared by 6 or 8 lines.
    pub fn rows_per_line(self) -> u32 {
        72 / u32::from(self.spacing)
    }

    pub fn rows(self) -> u32 {
        u32::from(self.lines) * self.rows_per_line()
    }

    pub fn page_bytes(self) -> usize {
        self.rows() as usize * self.model.row_bytes()
    }

    /// Where a form starts: N2's first row.
    pub fn start(self) -> Row {
        self.first_row(self.top)
    }

    /// r + 9 ≤ N3 × R.
    pub fn fits(self, row: Row) -> bool {
        let end = u32::from(self.bottom.0) * self.rows_per_line();
        u64::from(row.0) + u64::from(WIRES) <= u64::from(end)
    }

    /// The line on which a row lies: 1 + r ÷ R, rounded down.
    pub fn line_of(self, row: Row) -> Line {
        Line((1 + row.0 / self.rows_per_line()) as u8)
    }

    pub fn first_row(self, line: Line) -> Row {
        Row((u32::from(line.0) - 1) * self.rows_per_line())
    }

    /// Is this a line of the form: 1..L?
    pub fn has(self, line: Line) -> bool {
        (1..=self.lines).contains(&line.0)
    }

    /// Is this a line within the margins: N2..N3?
    pub fn prints_on(self, line: Line) -> bool {
        (self.top..=self.bottom).contains(&line)
    }
}

#[derive(Clone, Copy, PartialEq, Eq, Debug)]
pub enum Pitch {
    Normal,
    Compressed,
}

impl Pitch {
    /// Grid positions from one column to the next.
    pub fn apart(self) -> usize {
        match self {
            Pitch::Normal => 5,
            Pitch::Compressed => 3,
        }
    }
}

/// Strikes the line at a row that fits: each position below W is struck, and
/// the whole store is then zeroed.
pub fn strike(page: &mut [u8], line_store: &mut [u16], row: Row, model: Model, pitch: Pitch) {
    let positions = line_store[..model.width(pitch)].iter().enumerate();
    // Most positions are empty, and strike nothing.
    for (position, &number) in positions.filter(|&(_, &number)| number != 0) {
        strike_position(page, number, row, model, model.grid(position, pitch));
    }
    line_store.fill(0);
}

/// Each set wire i of a position blackens its grid position in row r + i − 1.
pub fn strike_position(page: &mut [u8], number: u16, row: Row, model: Model, grid: Grid) {
    for wire in 1..=WIRES {
        if number & wire_bit(wire) != 0 {
            blacken(page, Row(row.0 + wire - 1), model, grid);
        }
    }
}

/// Blackens one dot; the leftmost position is in a byte's highest bit.
fn blacken(page: &mut [u8], row: Row, model: Model, grid: Grid) {
    page[row.0 as usize * model.row_bytes() + grid.0 / 8] |= 0x80 >> (grid.0 % 8);
}
