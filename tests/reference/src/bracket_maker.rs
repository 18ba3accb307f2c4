//! The 6215's own commands for jobs, right and wrong: print styles, forms,
//! spacings, and lines of mixed pitches.

use crate::job_maker::{lines, JobMaker};
use crate::model::Model;
use crate::random::Random;
use crate::sheet::{Form, Line, Pitch};

/// A number's digits, sometimes with zeros before them; or those of a larger
/// number that a count too short would take for it.
fn digits(random: &mut Random, number: u8) -> String {
    let number = u128::from(number);
    match random.weighted(&[82, 13, 5]) {
        0 => number.to_string(),
        1 => {
            let zeros = random.pick(&[1, 1, 2, 3, 9, 30]);
            "0".repeat(zeros) + &number.to_string()
        }
        _ => {
            let more = match random.weighted(&[20, 80]) {
                0 => random.pick(&[10_000, 10_u128.pow(29)]),
                _ => 1 << random.pick(&[8, 16, 16, 32, 32, 64, 64, 96]),
            };
            (more + number).to_string()
        }
    }
}

/// Numbers with semicolons between them; omitted ones leave nothing.
fn parameters(random: &mut Random, numbers: &[Option<u8>]) -> String {
    let written: Vec<String> = numbers
        .iter()
        .map(|number| number.map_or(String::new(), |number| digits(random, number)))
        .collect();
    written.join(";")
}

impl JobMaker {
    fn bracket(&mut self, parameters: &str, last: u8) {
        self.put(b"\x1B[");
        self.put(parameters.as_bytes());
        self.put(&[last]);
    }

    /// One of the commands, for any model.
    pub fn any_bracket(&mut self) {
        match self.random.below(5) {
            0 | 1 => self.style(),
            2 => self.form_change(),
            3 => self.spacing_change(),
            _ => self.wrong_bracket(),
        }
    }

    // Print styles.

    pub fn style(&mut self) {
        let value = match self.random.chance(80) {
            true => self.random.pick(&[0, 2, 4, 6]),
            false => self
                .random
                .pick(&[1, 3, 5, 7, 8, 9, 10, 12, 20, 24, 40, 44, 60, 102, 255]),
        };
        let parameters = self.one_number(value);
        self.bracket(&parameters, b'w');
    }

    /// A number, now and then omitted or with a semicolon.
    fn one_number(&mut self, value: u8) -> String {
        let written = digits(&mut self.random, value);
        match self.random.weighted(&[88, 3, 3, 3, 3]) {
            0 => written,
            1 => String::new(),
            2 => written + ";",
            3 => String::from(";") + &written,
            _ => written + ";" + &value.to_string(),
        }
    }

    /// Characters with the style changed between them.
    pub fn styled_text(&mut self) {
        for _ in 0..self.random.number(1..=6) {
            match self.random.below(4) {
                0 => {
                    let letter = self.random.pick(b"<=>?>?ab");
                    self.put(&[0x1B, letter]);
                }
                _ => self.style(),
            }
            let count = self.random.number(0..=9);
            self.characters(count);
        }
        if self.random.chance(50) {
            self.terminator();
        }
    }

    // Form and spacing.

    /// Comes to where a form may change, or to where it may not. Is it likely
    /// that it may? Form feeds are the rarer the longer the form.
    fn approach(&mut self) -> bool {
        let (form, feeds) = (self.form, 400 / (10 + usize::from(self.form.lines)));
        let lines = usize::from(form.bottom.0 - form.top.0) + 1;
        match self.random.weighted(&[25, feeds, 8, 4, 6, 6, 6]) {
            0 => {}
            1 => self.put(b"\x0C"),
            2 => self.put(b"\r"),
            // From the first row these end the form.
            3 => self.put(&vec![0x0A; lines]),
            4 => {
                self.put(b"\r");
                self.characters(1);
                return false;
            }
            5 => {
                self.put(b"\n");
                return lines == 1;
            }
            _ => {
                self.put(b"\r\x1Bd\x01\x1Be");
                return false;
            }
        }
        true
    }

    pub fn form_change(&mut self) {
        let in_place = self.approach();
        self.form_setting(in_place);
    }

    /// A form setting, mostly one that is allowed.
    pub fn form_setting(&mut self, in_place: bool) {
        if self.random.chance(6) {
            let odd = self
                .random
                .pick(&["", ";", ";;", ";;;", ";;;;", "5;1;5;", "5;1;5;5", "5;;;"]);
            self.bracket(odd, b'r');
            return;
        }
        let mut numbers = match self.random.chance(82) {
            true => self.right_numbers(),
            false => self.wrong_numbers(),
        };
        if self.random.chance(20) {
            numbers[self.random.below(3)] = None;
        }
        let count = match numbers {
            [_, None, None] => self.random.number(1..=3),
            [_, _, None] => self.random.number(2..=3),
            _ => 3,
        };
        let parameters = parameters(&mut self.random, &numbers[..count]);
        self.bracket(&parameters, b'r');
        let form = Form {
            lines: numbers[0].unwrap_or(self.form.lines),
            top: numbers[1].map_or(self.form.top, Line),
            bottom: numbers[2].map_or(self.form.bottom, Line),
            ..self.form
        };
        if in_place && form.is_allowed() {
            self.form = form;
        }
    }

    /// N1, N2 and N3, or some of them, that make a form.
    fn right_numbers(&mut self) -> [Option<u8>; 3] {
        let most = self.form.model.most_lines();
        let old = self.form;
        match self.random.weighted(&[50, 15, 12, 12, 11]) {
            0 => {
                let lines = lines(&mut self.random, self.form.model);
                let [top, bottom] = self.margins(lines);
                [Some(lines), Some(top), Some(bottom)]
            }
            1 => {
                let [top, bottom] = self.margins(old.lines);
                [None, Some(top), Some(bottom)]
            }
            2 => {
                let lines = old.bottom.0 + self.random.byte(0..=4);
                [Some(lines.min(most)), None, None]
            }
            3 => [None, Some(self.random.byte(1..=old.bottom.0)), None],
            _ => {
                let bottom = self.random.number(old.top.0.into()..=old.lines.into());
                [None, None, Some(bottom as u8)]
            }
        }
    }

    /// Margins of every size.
    fn margins(&mut self, lines: u8) -> [u8; 2] {
        let line = self.random.byte(1..=lines);
        let bottom = self.random.byte(line..=lines);
        self.random.pick(&[
            [line, bottom],
            [line, bottom],
            [line, line],
            [line, lines],
            [1, line],
            [1, lines],
            [lines, lines],
        ])
    }

    /// A number too large for the next one, past 112, or 0.
    fn wrong_numbers(&mut self) -> [Option<u8>; 3] {
        let lines = lines(&mut self.random, self.form.model);
        let [top, bottom] = self.margins(lines);
        let numbers = match self.random.below(8) {
            0 => [lines, bottom + 1, bottom],
            1 => [lines, top, lines + 1],
            2 => [lines, lines + 1, lines + 1],
            3 => [113, top, bottom],
            4 => [self.random.pick(&[113, 128, 200, 255]); 3],
            5 => [0, top, bottom],
            6 => [lines, 0, bottom],
            _ => [lines, top, 0],
        };
        numbers.map(Some)
    }

    pub fn spacing_change(&mut self) {
        let in_place = self.approach();
        let value = match self.random.chance(85) {
            true => self.random.byte(1..=2),
            false => self.random.pick(&[0, 3, 4, 6, 8, 9, 10, 12, 20]),
        };
        let parameters = self.one_number(value);
        self.bracket(&parameters, b'z');
        if in_place && value == 1 {
            self.form.spacing = 6;
        }
        if in_place && value == 2 {
            self.form.spacing = 8;
        }
    }

    /// Tabs inside and outside margins, and forms that drop some of them.
    pub fn tabs_and_margins(&mut self) {
        for _ in 0..self.random.number(1..=3) {
            let feeds = 2_000 / (20 + usize::from(self.form.lines));
            let in_place = self.random.chance(feeds);
            if in_place {
                self.put(b"\x0C");
            }
            self.form_setting(in_place);
            self.tabs();
        }
    }

    /// ESC [ with another last byte, whatever stands before it.
    pub fn wrong_bracket(&mut self) {
        let mut parameters = String::new();
        for _ in 0..self.random.below(8) {
            parameters.push(char::from(self.random.pick(b"0123456789;;;;")));
        }
        let last = match self.random.weighted(&[60, 25, 15]) {
            0 => self.random.pick(
                b"\x00\x07\x0A\x0B\x0C\x0D\x18\x1B\x1B\x20\x2F\x3A\x3C\x3F[mguvhRWZe\x7F\x80\x9B\xFF",
            ),
            1 => self.random.byte(0x80..=0xFF),
            _ => self.random.pick(b"wrz"),
        };
        self.bracket(&parameters, last);
        if last == 0x1B && self.random.chance(60) {
            // Were that ESC acted on, these would be a command.
            let next = self.random.pick(b"<=>a5dc[");
            self.put(&[next]);
        }
    }

    // Lines of mixed pitches.

    /// Chooses pitch and cell, and gives the positions that a cell then takes.
    fn choose_cell(&mut self) -> usize {
        let (value, cell) = self.random.pick(&[(0, 100), (2, 60), (4, 50), (6, 30)]);
        if self.random.chance(50) {
            self.bracket(&value.to_string(), b'w');
        } else {
            let pitch = if value % 4 == 0 { b'?' } else { b'>' };
            let stretch = if value < 4 { b'<' } else { b'=' };
            self.put(&[0x1B, pitch, 0x1B, stretch]);
        }
        cell
    }

    /// A line of cells of every size, to its end or near it, and past it.
    pub fn mixed_line(&mut self) {
        self.put(b"\r");
        if self.random.chance(40) {
            self.put(b"\x1Ba");
        }
        let mut left = Model::M6215.width(Pitch::Normal);
        while left > 300 {
            let cell = self.choose_cell();
            let most = ((left - 120) / cell).min(60);
            let count = self.random.number(0..=most);
            self.characters(count);
            left -= count * cell;
        }
        if self.random.chance(60) {
            // Compressed cells first, so that normal ones end the line exactly.
            let compressed = (0..5).find(|n| (left - 30 * n) % 50 == 0).unwrap_or(0);
            self.bracket("6", b'w');
            self.characters(compressed);
            self.bracket("4", b'w');
            self.characters((left - 30 * compressed) / 50);
        }
        for _ in 0..self.random.number(1..=9) {
            self.choose_cell();
            let count = self.random.number(1..=2);
            self.characters(count);
        }
        if self.random.chance(80) {
            self.terminator();
        }
    }
}
