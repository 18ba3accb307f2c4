//! Document 01, "What a call gives back": opening, feeding, closing.

use crate::lent::Lent;
use crate::model::Model;
use crate::outcome::{Fault, Outcome};
use crate::sheet::Form;
use crate::state::State;
use crate::{commands, plot, text};

/// A job has at most 4,294,967,295 bytes.
const JOB_LIMIT: u32 = u32::MAX;

/// What feeding answers.
#[derive(Clone, Copy, PartialEq, Eq, Debug)]
pub enum Answer {
    UsedUp,
    FormFinished,
    Note(Fault, u32),
    JobFull,
    /// 10 to 15.
    Refused(u8),
}

impl Answer {
    pub fn number(self) -> u8 {
        match self {
            Answer::UsedUp => 0,
            Answer::FormFinished => 1,
            Answer::Note(..) => 2,
            Answer::JobFull => 3,
            Answer::Refused(number) => number,
        }
    }
}

#[derive(Clone, Copy, PartialEq, Eq, Debug)]
pub struct Fed {
    pub answer: Answer,
    pub taken: usize,
}

/// What closing answers.
#[derive(Clone, Copy, PartialEq, Eq, Debug)]
pub enum Closing {
    Clean,
    LineUnprinted,
    CommandUnfinished(u32),
    Unsound,
}

/// Checks 18, 19, 11 to 15. A refusal writes nothing and gives the model's shut
/// state.
pub fn open(model: Model, lines: u8, spacing: u8, lent: &mut Lent) -> (u8, State) {
    let form = Form::opened(model, lines, spacing);
    let refusal = if !form.lines_allowed() {
        Some(18)
    } else if !form.spacing_allowed() {
        Some(19)
    } else {
        lent.refusal(form)
    };
    if let Some(number) = refusal {
        return (number, State::shut(model));
    }
    lent.zero();
    (0, State::opened(form))
}

/// Checks 10, 11 to 15, then takes bytes up to the first note or finished form.
pub fn feed(state: &mut State, lent: &mut Lent, piece: &[u8]) -> Fed {
    if !state.is_sound() {
        return Fed {
            answer: Answer::Refused(10),
            taken: 0,
        };
    }
    if let Some(number) = lent.refusal(state.form) {
        return Fed {
            answer: Answer::Refused(number),
            taken: 0,
        };
    }
    for (taken, &byte) in piece.iter().enumerate() {
        if state.job == JOB_LIMIT {
            return Fed {
                answer: Answer::JobFull,
                taken,
            };
        }
        let outcome = take(state, lent, byte);
        state.job += 1;
        let taken = taken + 1;
        match outcome {
            Outcome::Finished => {
                return Fed {
                    answer: Answer::FormFinished,
                    taken,
                }
            }
            Outcome::Note(fault, place) => {
                return Fed {
                    answer: Answer::Note(fault, place),
                    taken,
                };
            }
            Outcome::Quiet => {}
        }
    }
    Fed {
        answer: Answer::UsedUp,
        taken: piece.len(),
    }
}

/// One byte, at the place `state.job`.
fn take(state: &mut State, lent: &mut Lent, byte: u8) -> Outcome {
    match (state.started, state.plotting) {
        (None, false) => text::take(state, lent, byte),
        (None, true) => plot::take(state, lent, byte),
        (Some(command), false) => commands::take(state, lent, command, byte),
        (Some(command), true) => plot::take_after_escape(state, lent, command.place, byte),
    }
}

/// Reads only the state.
pub fn close(state: &State) -> Closing {
    if !state.is_sound() {
        Closing::Unsound
    } else if let Some(command) = state.started {
        Closing::CommandUnfinished(command.place)
    } else if !state.fresh {
        Closing::LineUnprinted
    } else {
        Closing::Clean
    }
}
