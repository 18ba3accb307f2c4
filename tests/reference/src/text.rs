//! Document 01, "Bytes outside plot mode": single bytes, and printing.

use crate::glyph;
use crate::lent::Lent;
use crate::outcome::{Fault, Outcome};
use crate::sheet::WIRE_9;
use crate::state::{Command, Due, State};
use crate::terminators::{self, Terminator};

/// A byte outside plot mode with no command begun.
pub fn take(state: &mut State, lent: &mut Lent, byte: u8) -> Outcome {
    match byte {
        0x20..=0x7E => print(state, lent, byte),
        0x00 | 0x07 | 0x7F => Outcome::Quiet,
        0x0A => terminators::take(state, lent, Terminator::Newline),
        0x0B => terminators::take(state, lent, Terminator::VerticalTab),
        0x0C => terminators::take(state, lent, Terminator::FormFeed),
        0x0D => terminators::take(state, lent, Terminator::CarriageReturn),
        0x1B => {
            state.started = Some(Command {
                place: state.job,
                due: Due::Letter,
            });
            Outcome::Quiet
        }
        _ => Outcome::Note(Fault::StrayByte, state.job),
    }
}

/// Enters a character: a cell of 10 columns, or 20 elongated.
fn print(state: &mut State, lent: &mut Lent, code: u8) -> Outcome {
    if state.plot_line {
        return Outcome::Note(Fault::PrintOnPlotLine, state.job);
    }
    let stretch = if state.elongated { 2 } else { 1 };
    let step = state.step();
    let end = state.position + 10 * stretch * step;
    if end > state.width() {
        return Outcome::Note(Fault::PastLine, state.job);
    }
    let glyphs = if state.downloaded {
        &lent.store
    } else {
        &lent.font
    };
    let columns = glyph::columns(glyphs, code);
    // Each column of the cell stands at the first of its positions.
    let cell = lent.line[state.position..end].iter_mut().step_by(step);
    for (column, number) in cell.enumerate() {
        *number |= columns.get(column / stretch).unwrap_or(&0);
        if state.underscore && column % 2 == 0 {
            *number |= WIRE_9;
        }
    }
    state.position = end;
    state.fresh = false;
    Outcome::Quiet
}
