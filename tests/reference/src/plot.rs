//! Document 01, "Plot mode".

use crate::lent::Lent;
use crate::outcome::{Fault, Outcome};
use crate::state::{Command, Due, State};

const ESC: u8 = 0x1B;

/// A byte in plot mode with no ESC before it.
pub fn take(state: &mut State, lent: &mut Lent, byte: u8) -> Outcome {
    match byte {
        ESC => {
            state.started = Some(Command {
                place: state.job,
                due: Due::Letter,
            });
            Outcome::Quiet
        }
        0x00..=0x7F => enter(state, lent, byte, state.job),
        0x80..=0xFF => Outcome::Note(Fault::PlotHighByte, state.job),
    }
}

/// The byte after an ESC in plot mode; a note has the place of the ESC.
pub fn take_after_escape(state: &mut State, lent: &mut Lent, place: u32, byte: u8) -> Outcome {
    state.started = None;
    match byte {
        ESC => enter(state, lent, ESC, place),
        b'e' => {
            state.plotting = false;
            Outcome::Quiet
        }
        _ => Outcome::Note(Fault::PlotEscape, place),
    }
}

/// Enters one column on the bottom seven wires, bits 0..6, at the first of the
/// positions that it takes.
fn enter(state: &mut State, lent: &mut Lent, value: u8, place: u32) -> Outcome {
    if state.position + state.step() > state.width() {
        return Outcome::Note(Fault::PlotPastLine, place);
    }
    lent.line[state.position] |= u16::from(value);
    state.position += state.step();
    Outcome::Quiet
}
