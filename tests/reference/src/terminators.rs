//! Document 01, "Bytes outside plot mode": the four line terminators.

use crate::lent::Lent;
use crate::outcome::Outcome;
use crate::sheet::{strike, Row};
use crate::state::State;

#[derive(Clone, Copy, PartialEq, Eq, Debug)]
pub enum Terminator {
    Newline,
    VerticalTab,
    FormFeed,
    CarriageReturn,
}

/// Rows that 0A moves on a plot line, at either spacing.
const PLOT_ROWS: u32 = 7;

/// Each terminator strikes the line, then moves. The row fits: it did when the
/// piece was fed, as soundness asks, and no byte moves to one that does not.
pub fn take(state: &mut State, lent: &mut Lent, terminator: Terminator) -> Outcome {
    let step = if state.plot_line {
        PLOT_ROWS
    } else {
        state.form.rows_per_line()
    };
    let model = state.form.model;
    strike(
        &mut lent.page,
        &mut lent.line,
        state.row,
        model,
        state.pitch,
    );
    state.begin_line();
    match terminator {
        Terminator::CarriageReturn => Outcome::Quiet,
        Terminator::FormFeed => finish(state, state.form.start()),
        Terminator::Newline => newline(state, step),
        Terminator::VerticalTab => vertical_tab(state),
    }
}

fn finish(state: &mut State, row: Row) -> Outcome {
    state.row = row;
    Outcome::Finished
}

fn newline(state: &mut State, step: u32) -> Outcome {
    let row = Row(state.row.0 + step);
    if !state.form.fits(row) {
        return finish(state, state.form.start());
    }
    state.row = row;
    Outcome::Quiet
}

/// To the next tabbed line below; with none below, to the lowest-numbered one
/// on the next form; with no tab at all, no move. Tabs outside the margins
/// count as none.
fn vertical_tab(state: &mut State) -> Outcome {
    let (form, current) = (state.form, state.line());
    let mut tabs = state.tabs.iter().filter(|&&line| form.prints_on(line));
    let lowest = tabs.clone().next().copied();
    let below = tabs.find(|&&line| line > current).copied();
    match (below, lowest) {
        (Some(line), _) => {
            state.row = form.first_row(line);
            Outcome::Quiet
        }
        (None, Some(line)) => finish(state, form.first_row(line)),
        (None, None) => Outcome::Quiet,
    }
}
