//! The state between two calls, and when it is sound (document 01, "What a
//! call gives back"; of margins and models, document 02, #105).

use crate::bracket::Bracket;
use crate::download::Download;
use crate::model::Model;
use crate::sheet::{Form, Line, Pitch, Row};
use std::collections::BTreeSet;

#[derive(Clone, PartialEq, Eq, Debug)]
pub struct State {
    /// The form, and with it the model.
    pub form: Form,
    /// Bytes of the job taken so far, and so the next byte's place.
    pub job: u32,
    pub row: Row,
    /// A number of the line store: an LP2's column, a 6215's grid position.
    pub position: usize,
    pub pitch: Pitch,
    pub elongated: bool,
    pub underscore: bool,
    pub downloaded: bool,
    pub fresh: bool,
    /// Plot mode was begun on this line.
    pub plot_line: bool,
    /// Plot mode holds.
    pub plotting: bool,
    pub tabs: BTreeSet<Line>,
    pub started: Option<Command>,
}

/// A command begun and not yet finished.
#[derive(Clone, Copy, PartialEq, Eq, Debug)]
pub struct Command {
    /// The place of its first byte, the ESC.
    pub place: u32,
    pub due: Due,
}

/// What a started command waits for.
#[derive(Clone, Copy, PartialEq, Eq, Debug)]
pub enum Due {
    /// The byte after ESC.
    Letter,
    /// ESC F: an item or the closing 00.
    TabItem,
    /// ESC c: the 00.
    ResetByte,
    /// ESC N: the first of two bytes.
    SelectFirst,
    /// ESC N: the second, with the first as it came.
    SelectSecond(u8),
    /// ESC Y: some byte of a download.
    Download(Download),
    /// ESC [: a digit, a semicolon or the last byte.
    Bracket(Bracket),
}

impl State {
    /// Row 0, position 0, normal pitch, all features off, no tabs.
    pub fn opened(form: Form) -> State {
        State {
            form,
            job: 0,
            row: Row(0),
            position: 0,
            pitch: Pitch::Normal,
            elongated: false,
            underscore: false,
            downloaded: false,
            fresh: true,
            plot_line: false,
            plotting: false,
            tabs: BTreeSet::new(),
            started: None,
        }
    }

    /// What a refused opening gives: L = 0, which is unsound.
    pub fn shut(model: Model) -> State {
        State::opened(Form::opened(model, 0, 0))
    }

    pub fn line(&self) -> Line {
        self.form.line_of(self.row)
    }

    /// W for the model and the pitch.
    pub fn width(&self) -> usize {
        self.form.model.width(self.pitch)
    }

    /// The positions that a column takes in this pitch.
    pub fn step(&self) -> usize {
        self.form.model.step(self.pitch)
    }

    /// The line in progress is over: position 0, fresh, no plot line.
    pub fn begin_line(&mut self) {
        self.position = 0;
        self.fresh = true;
        self.plot_line = false;
    }

    /// The job length needs no test: every u32 is in range.
    pub fn is_sound(&self) -> bool {
        self.form.is_allowed()
            && self.form.start() <= self.row
            && self.form.fits(self.row)
            && self.position <= self.width()
            && self.tabs.iter().all(|&line| self.form.has(line))
            && self
                .started
                .is_none_or(|command| self.command_is_sound(command))
            && (!self.fresh || (self.position == 0 && !self.plot_line))
            && (!self.plotting || self.plot_is_sound())
    }

    fn command_is_sound(&self, command: Command) -> bool {
        let due_is_sound = match command.due {
            Due::Download(download) => download.taken <= download.count,
            Due::Bracket(_) => self.form.model == Model::M6215,
            _ => true,
        };
        command.place < self.job && due_is_sound
    }

    /// Plot mode: only on a plot line, and no command begun but a lone ESC.
    fn plot_is_sound(&self) -> bool {
        self.plot_line
            && self
                .started
                .is_none_or(|command| command.due == Due::Letter)
    }
}
