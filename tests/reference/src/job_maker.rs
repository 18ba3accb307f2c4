//! Jobs: fragments in a row, some kinds of them favoured, with an end that may
//! break off.

use crate::download_maker::half_download;
use crate::fragments::FRAGMENTS;
use crate::model::Model;
use crate::random::Random;
use crate::sheet::Form;

pub struct JobMaker {
    pub random: Random,
    /// The form, as far as the maker can tell, so that tabs, moves and margins
    /// make sense.
    pub form: Form,
    /// Plot mode may hold, and an ESC e be wanted.
    pub may_plot: bool,
    pub job: Vec<u8>,
}

/// Lines of a form: small forms more often than large ones.
pub fn lines(random: &mut Random, model: Model) -> u8 {
    match random.weighted(&[60, 20, 12, 6, 2]) {
        0 => random.byte(1..=5),
        1 => random.byte(6..=12),
        2 => random.byte(13..=40),
        3 => random.byte(41..=66),
        _ => random.byte(67..=model.most_lines()),
    }
}

/// A job for a form, and for its model.
pub fn job(random: &mut Random, form: Form) -> Vec<u8> {
    let mut maker = JobMaker {
        random: random.fork(),
        form,
        may_plot: false,
        job: Vec::new(),
    };
    let length = maker.wanted_length();
    let model = usize::from(form.model.number());
    let mut weights: Vec<usize> = FRAGMENTS
        .iter()
        .map(|(weights, _)| weights[model])
        .collect();
    for _ in 0..2 {
        let favoured = maker.random.below(weights.len());
        weights[favoured] *= 6;
    }
    if form.model == Model::M6215 && length > 0 && maker.random.chance(40) {
        // A job that sets its own form first, as hosts do.
        maker.form_setting(true);
    }
    while maker.job.len() < length {
        if maker.may_plot && maker.random.chance(60) {
            maker.put(b"\x1Be");
            maker.may_plot = false;
        }
        let (_, fragment) = FRAGMENTS[maker.random.weighted(&weights)];
        fragment(&mut maker);
    }
    maker.end();
    maker.job
}

impl JobMaker {
    fn wanted_length(&mut self) -> usize {
        match self.random.weighted(&[3, 17, 60, 16, 3, 1]) {
            0 => 0,
            1 => self.random.number(1..=60),
            2 => self.random.number(60..=900),
            3 => self.random.number(900..=2_500),
            4 => self.random.number(2_500..=6_000),
            _ => self.random.number(6_000..=14_000),
        }
    }

    /// Ends as it stands, cut off anywhere near the end, or in a half command.
    fn end(&mut self) {
        match self.random.weighted(&[45, 25, 30]) {
            0 => {}
            1 => {
                let dropped = self.random.number(0..=30).min(self.job.len());
                self.job.truncate(self.job.len() - dropped);
            }
            _ => self.half_command(),
        }
    }

    fn half_command(&mut self) {
        if self.may_plot {
            self.put(b"\x1Be");
        }
        match self.random.below(10) {
            0 => self.put(b"\x1B"),
            1 => {
                self.put(b"\x1BF");
                for _ in 0..self.random.below(5) {
                    self.tab_item();
                }
            }
            2 => self.put(b"\x1Bc"),
            3 => self.put(b"\x1BN"),
            4 => self.put(b"\x1BN\x04"),
            5 => self.put(b"\r\x1Bd\x01\x1B"),
            6 | 7 => {
                let numbers = self.random.pick(&[
                    "",
                    "4",
                    "00",
                    ";",
                    "66;1;66",
                    ";;;",
                    "18446744073709551620",
                ]);
                self.put(b"\x1B[");
                self.put(numbers.as_bytes());
            }
            _ => {
                let half = half_download(&mut self.random);
                self.put(&half);
            }
        }
    }

    pub fn put(&mut self, bytes: &[u8]) {
        self.job.extend(bytes);
    }
}
