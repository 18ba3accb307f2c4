//! Document 01, "Bytes outside plot mode": the table after ESC.

use crate::bracket::{self, Bracket};
use crate::download::{self, Download};
use crate::lent::Lent;
use crate::model::Model;
use crate::outcome::{Fault, Outcome};
use crate::sheet::{Line, Pitch};
use crate::state::{Command, Due, State};

/// A byte of a command begun outside plot mode.
pub fn take(state: &mut State, lent: &mut Lent, command: Command, byte: u8) -> Outcome {
    let place = command.place;
    match command.due {
        Due::Letter => letter(state, place, byte),
        Due::TabItem => tab_item(state, byte),
        Due::ResetByte => reset(state, lent, place, byte),
        Due::SelectFirst => wait(state, place, Due::SelectSecond(byte)),
        Due::SelectSecond(first) => select(state, place, [first, byte]),
        Due::Download(download) => download::take(state, lent, place, download, byte),
        Due::Bracket(bracket) => bracket::take(state, place, bracket, byte),
    }
}

/// The command goes on.
pub fn wait(state: &mut State, place: u32, due: Due) -> Outcome {
    state.started = Some(Command { place, due });
    Outcome::Quiet
}

/// The byte after ESC.
fn letter(state: &mut State, place: u32, byte: u8) -> Outcome {
    state.started = None;
    match byte {
        b'5' => {
            state.tabs.insert(state.line());
        }
        b'6' => {
            state.tabs.remove(&state.line());
        }
        b'F' => {
            state.tabs.clear();
            return wait(state, place, Due::TabItem);
        }
        b'<' => state.elongated = true,
        b'=' => state.elongated = false,
        b'a' => state.underscore = true,
        b'b' => state.underscore = false,
        b'>' => return set_pitch(state, place, Pitch::Compressed),
        b'?' => return set_pitch(state, place, Pitch::Normal),
        b'd' => return begin_plot(state, place),
        b'e' => {}
        b'c' => return wait(state, place, Due::ResetByte),
        b'Y' => return wait(state, place, Due::Download(Download::begun())),
        b'N' => return wait(state, place, Due::SelectFirst),
        b'O' => state.downloaded = false,
        b'[' if state.form.model == Model::M6215 => {
            return wait(state, place, Due::Bracket(Bracket::begun()));
        }
        _ => return Outcome::Note(Fault::UnknownCommand, place),
    }
    Outcome::Quiet
}

/// ESC > and ESC ?: on an LP2 for fresh lines only, on a 6215 anywhere.
fn set_pitch(state: &mut State, place: u32, pitch: Pitch) -> Outcome {
    if state.form.model == Model::Lp2 && !state.fresh {
        return Outcome::Note(Fault::PitchInLine, place);
    }
    state.pitch = pitch;
    Outcome::Quiet
}

fn begin_plot(state: &mut State, place: u32) -> Outcome {
    if !state.fresh {
        return Outcome::Note(Fault::PlotInLine, place);
    }
    state.fresh = false;
    state.plot_line = true;
    state.plotting = true;
    Outcome::Quiet
}

/// ESC F: each item acts by itself, and a wrong one is noted at its own place.
fn tab_item(state: &mut State, byte: u8) -> Outcome {
    if byte == 0x00 {
        state.started = None;
        return Outcome::Quiet;
    }
    if !state.form.has(Line(byte)) {
        return Outcome::Note(Fault::TabItem, state.job);
    }
    state.tabs.insert(Line(byte));
    Outcome::Quiet
}

/// ESC c 00: the line is dropped unstruck; row, page, staging and form stay.
fn reset(state: &mut State, lent: &mut Lent, place: u32, byte: u8) -> Outcome {
    state.started = None;
    if byte != 0x00 {
        return Outcome::Note(Fault::ResetByte, place);
    }
    lent.line.fill(0);
    lent.store.fill(0);
    state.begin_line();
    state.tabs.clear();
    state.elongated = false;
    state.underscore = false;
    state.downloaded = false;
    state.pitch = Pitch::Normal;
    Outcome::Quiet
}

/// ESC N: the pair 04 00 selects the downloaded glyphs.
fn select(state: &mut State, place: u32, pair: [u8; 2]) -> Outcome {
    state.started = None;
    if pair != [0x04, 0x00] {
        return Outcome::Note(Fault::SelectPair, place);
    }
    state.downloaded = true;
    Outcome::Quiet
}
