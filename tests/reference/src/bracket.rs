//! Document 02, #105: the 6215's ESC [ with its numbers, and what its last byte
//! asks for: a print style, a form, a spacing.

use crate::commands::wait;
use crate::outcome::{Fault, Outcome};
use crate::sheet::{Form, Line, Pitch};
use crate::state::{Due, State};

/// What has come after ESC [.
#[derive(Clone, Copy, PartialEq, Eq, Debug)]
pub struct Bracket {
    /// The first three numbers, none where no digit stands.
    numbers: [Option<u32>; 3],
    /// Semicolons; the third and all after it make three.
    semicolons: usize,
}

impl Bracket {
    pub fn begun() -> Bracket {
        Bracket {
            numbers: [None; 3],
            semicolons: 0,
        }
    }

    /// Numbers too large to keep stay at the largest, which no command takes.
    fn digit(&mut self, digit: u8) {
        // Behind a third semicolon no number counts.
        if let Some(number) = self.numbers.get_mut(self.semicolons) {
            let value = number.unwrap_or(0);
            *number = Some(value.saturating_mul(10).saturating_add(u32::from(digit)));
        }
    }

    fn semicolon(&mut self) {
        self.semicolons = (self.semicolons + 1).min(self.numbers.len());
    }

    /// The number where there is one, and no semicolon.
    fn only_number(self) -> Option<u32> {
        self.numbers[0].filter(|_| self.semicolons == 0)
    }

    /// The form that N1, N2 and N3 make of the old one; omitted numbers keep
    /// their setting. None for a third semicolon or a form that is not allowed.
    fn form(self, old: Form) -> Option<Form> {
        if self.semicolons >= self.numbers.len() {
            return None;
        }
        let setting = |number: Option<u32>, old: u8| match number {
            Some(number) => u8::try_from(number).ok(),
            None => Some(old),
        };
        let form = Form {
            lines: setting(self.numbers[0], old.lines)?,
            top: Line(setting(self.numbers[1], old.top.0)?),
            bottom: Line(setting(self.numbers[2], old.bottom.0)?),
            ..old
        };
        Some(form).filter(|form| form.is_allowed())
    }
}

/// A byte after ESC [: the first that is no digit and no semicolon ends the
/// command, whatever it is.
pub fn take(state: &mut State, place: u32, mut bracket: Bracket, byte: u8) -> Outcome {
    match byte {
        b'0'..=b'9' => bracket.digit(byte - b'0'),
        b';' => bracket.semicolon(),
        _ => {
            state.started = None;
            return finish(state, place, bracket, byte);
        }
    }
    wait(state, place, Due::Bracket(bracket))
}

/// Notes 42, 46 and 43, in this order; a refused command changes nothing.
fn finish(state: &mut State, place: u32, bracket: Bracket, last: u8) -> Outcome {
    match last {
        b'w' => set_style(state, place, bracket),
        b'z' => set_spacing(state, place, bracket),
        b'r' => set_form(state, place, bracket),
        _ => Outcome::Note(Fault::UnknownBracket, place),
    }
}

/// ESC [ v w, anywhere in a line: pitch and elongation, both.
fn set_style(state: &mut State, place: u32, bracket: Bracket) -> Outcome {
    let (pitch, elongated) = match bracket.only_number() {
        Some(0) => (Pitch::Normal, true),
        Some(2) => (Pitch::Compressed, true),
        Some(4) => (Pitch::Normal, false),
        Some(6) => (Pitch::Compressed, false),
        _ => return Outcome::Note(Fault::StyleValue, place),
    };
    state.pitch = pitch;
    state.elongated = elongated;
    Outcome::Quiet
}

/// ESC [ 1 z and ESC [ 2 z: 6 and 8 lines an inch.
fn set_spacing(state: &mut State, place: u32, bracket: Bracket) -> Outcome {
    let spacing = match bracket.only_number() {
        Some(1) => 6,
        Some(2) => 8,
        _ => return Outcome::Note(Fault::SpacingValue, place),
    };
    let form = Form {
        spacing,
        ..state.form
    };
    change_form(state, form).unwrap_or(Outcome::Note(Fault::SpacingOutOfPlace, place))
}

/// ESC [ N1;N2;N3 r: form length, top and bottom margin.
fn set_form(state: &mut State, place: u32, bracket: Bracket) -> Outcome {
    let Some(form) = bracket.form(state.form) else {
        return Outcome::Note(Fault::FormSetting, place);
    };
    change_form(state, form).unwrap_or(Outcome::Note(Fault::FormOutOfPlace, place))
}

/// On a fresh line at the old N2's first row, and nowhere else: the page is
/// finished unstruck, and one of the new size is due.
fn change_form(state: &mut State, form: Form) -> Option<Outcome> {
    if !state.fresh || state.row != state.form.start() {
        return None;
    }
    state.form = form;
    state.row = form.start();
    state.tabs.retain(|&line| form.has(line));
    Some(Outcome::Finished)
}
