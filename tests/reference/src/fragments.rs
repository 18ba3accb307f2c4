//! The fragments of which jobs are made: each a few commands that belong
//! together, mostly right, sometimes wrong.

use crate::download_maker::download;
use crate::job_maker::JobMaker;
use crate::model::Model;
use crate::sheet::Pitch;

/// Adds its bytes to the job.
type Fragment = fn(&mut JobMaker);

/// Every kind of fragment, with how often it comes on an LP2 and on a 6215.
pub const FRAGMENTS: [([usize; 2], Fragment); 21] = [
    ([14, 12], JobMaker::text),
    ([4, 3], JobMaker::overlong_text),
    ([10, 9], JobMaker::moves),
    ([6, 5], JobMaker::features),
    ([5, 5], JobMaker::pitch),
    ([10, 8], JobMaker::tabs),
    ([9, 8], JobMaker::plot),
    ([1, 1], JobMaker::overlong_plot),
    ([5, 4], JobMaker::plot_strip),
    ([8, 6], JobMaker::download_and_use),
    ([3, 3], JobMaker::selection),
    ([3, 3], JobMaker::reset),
    ([5, 4], JobMaker::wrong_bytes),
    ([2, 2], JobMaker::noise),
    ([2, 2], JobMaker::any_bracket),
    ([0, 6], JobMaker::styled_text),
    ([0, 9], JobMaker::form_change),
    ([0, 5], JobMaker::spacing_change),
    ([0, 4], JobMaker::tabs_and_margins),
    ([0, 4], JobMaker::wrong_bracket),
    ([0, 3], JobMaker::mixed_line),
];

impl JobMaker {
    // Text.

    fn character(&mut self) -> u8 {
        match self.random.weighted(&[60, 15, 25]) {
            0 => self.random.byte(b'A'..=b'Z'),
            1 => b' ',
            _ => self.random.byte(0x20..=0x7E),
        }
    }

    pub fn characters(&mut self, count: usize) {
        for _ in 0..count {
            let character = self.character();
            self.put(&[character]);
        }
    }

    /// Characters with features switched between them.
    fn text(&mut self) {
        if self.random.chance(30) {
            self.terminator();
        }
        for _ in 0..self.random.number(1..=4) {
            let count = self.random.number(1..=25);
            self.characters(count);
            if self.random.chance(30) {
                self.features();
            }
        }
        if self.random.chance(70) {
            self.terminator();
        }
    }

    /// A line filled to its end and past it, in either pitch and cell.
    fn overlong_text(&mut self) {
        if self.random.chance(80) {
            self.put(b"\r");
        }
        let letter = self.random.pick(b">?");
        let cell = self.random.pick(b"<=");
        self.put(&[0x1B, letter, 0x1B, cell]);
        let cells = self.columns(letter) / if cell == b'<' { 20 } else { 10 };
        let count = self.random.number(cells - 3..=cells + 3);
        self.characters(count);
        for _ in 0..self.random.below(4) {
            let other = self.random.pick(b"<=a");
            self.put(&[0x1B, other]);
            self.characters(1);
        }
        if self.random.chance(80) {
            self.terminator();
        }
    }

    /// The columns of a line after ESC with this letter.
    fn columns(&self, letter: u8) -> usize {
        let (model, pitch) = match letter {
            b'>' => (self.form.model, Pitch::Compressed),
            _ => (self.form.model, Pitch::Normal),
        };
        model.width(pitch) / model.step(pitch)
    }

    fn features(&mut self) {
        let letters: &[u8] = match self.form.model {
            Model::Lp2 => b"<<=ababeO",
            Model::M6215 => b"<<=ababeO>?",
        };
        for _ in 0..self.random.number(1..=3) {
            let letter = self.random.pick(letters);
            self.put(&[0x1B, letter]);
        }
    }

    fn pitch(&mut self) {
        match self.random.below(4) {
            0 => self.characters(1),
            1 => {}
            _ => self.put(b"\r"),
        }
        let letter = self.random.pick(b">>?");
        self.put(&[0x1B, letter]);
        if self.random.chance(60) {
            self.text();
        }
    }

    // Moves and tabs.

    /// Form feeds are the rarer the longer the form.
    pub fn terminator(&mut self) {
        let feeds = 30 / (2 + usize::from(self.form.lines));
        let byte = match self.random.weighted(&[50, 20, 12, feeds]) {
            0 => 0x0A,
            1 => 0x0D,
            2 => 0x0B,
            _ => 0x0C,
        };
        self.put(&[byte]);
    }

    /// Some terminators, or newlines enough to end the form.
    fn moves(&mut self) {
        if self.random.chance(80) {
            for _ in 0..self.random.number(1..=5) {
                self.terminator();
            }
        } else {
            let lines = usize::from(self.form.lines);
            let count = self.random.number(lines - 1..=lines + 1);
            self.put(&vec![0x0A; count]);
        }
    }

    /// Mostly a line of the form; else the one past it, or any number.
    pub fn tab_item(&mut self) {
        let item = match self.random.weighted(&[70, 10, 10, 10]) {
            0 => self.random.byte(1..=self.form.lines),
            1 => self.form.lines + 1,
            2 => self.random.pick(&[0x0A, 0x0C, 0x1B, 99, 100]),
            _ => self.random.byte(1..=255),
        };
        self.put(&[item]);
    }

    pub fn tabs(&mut self) {
        for _ in 0..self.random.number(1..=3) {
            match self.random.weighted(&[40, 30, 12, 18]) {
                0 => {
                    self.put(b"\x1BF");
                    for _ in 0..self.random.below(7) {
                        self.tab_item();
                    }
                    if !self.random.chance(1) {
                        self.put(&[0x00]);
                    }
                }
                1 => self.put(b"\x1B5"),
                2 => self.put(b"\x1B6"),
                _ => self.moves(),
            }
        }
        for _ in 0..self.random.below(4) {
            if self.random.chance(50) {
                self.characters(2);
            }
            self.put(&[0x0B]);
        }
    }

    // Plots.

    fn plot_byte(&mut self) {
        match self.random.weighted(&[80, 6, 4, 4, 6]) {
            0 => {
                let byte = self.random.byte(0x00..=0x7E);
                self.put(&[if byte == 0x1B { 0x7F } else { byte }]);
            }
            1 => self.put(b"\x1B\x1B"),
            2 => {
                let wrong = self.random.pick(b"\x00\x0AcdEFY[[>?\x80\xE5");
                self.put(&[0x1B, wrong]);
            }
            3 => {
                let high = self.random.byte(0x80..=0xFF);
                self.put(&[high]);
            }
            _ => {
                let byte = self.random.pick(&[0x0A, 0x0B, 0x0C, 0x0D, 0x7F, 0x00]);
                self.put(&[byte]);
            }
        }
    }

    fn plot(&mut self) {
        if self.random.chance(80) {
            self.put(b"\r");
        }
        self.put(b"\x1Bd");
        for _ in 0..self.random.below(40) {
            self.plot_byte();
        }
        if self.random.chance(10) {
            self.may_plot = true;
            return;
        }
        self.put(b"\x1Be");
        match self.random.below(9) {
            0 => self.characters(2),
            1 => self.put(b"\x1Bd"),
            2 => self.pitch(),
            3 => self.features(),
            4 => self.tabs(),
            5 => self.any_bracket(),
            _ => {}
        }
        if self.random.chance(80) {
            self.terminator();
        }
    }

    /// A plot line filled to its end, with every kind of byte past it.
    fn overlong_plot(&mut self) {
        let letter = self.random.pick(b">??");
        self.put(&[0x0D, 0x1B, letter, 0x1B, b'd']);
        let columns = self.columns(letter);
        for _ in 0..self.random.number(columns - 4..=columns) {
            let byte = self.random.pick(&[0x01, 0x2A, 0x55, 0x7F]);
            self.put(&[byte]);
        }
        for _ in 0..self.random.number(4..=12) {
            match self.random.below(4) {
                0 => self.put(b"\x1B\x1B"),
                1 => self.put(&[0x80]),
                2 => self.put(b"\x0A"),
                _ => self.plot_byte(),
            }
        }
        self.put(b"\x1Be");
        if self.random.chance(30) {
            self.characters(1);
        }
        self.terminator();
    }

    /// Plot lines one below the other, 7 rows apart.
    fn plot_strip(&mut self) {
        if self.random.chance(80) {
            self.put(b"\r");
        }
        for _ in 0..self.random.number(1..=14) {
            self.put(b"\x1Bd");
            for _ in 0..self.random.below(4) {
                let byte = self.random.byte(0x00..=0x1A);
                self.put(&[byte]);
            }
            self.put(b"\x1Be");
            if self.random.chance(10) {
                self.put(b"\r");
            }
            self.put(b"\n");
        }
    }

    // Downloads, selection, reset.

    /// A download, and characters before and after it with its codes.
    fn download_and_use(&mut self) {
        let made = download(&mut self.random);
        let codes: Vec<u8> = made
            .codes
            .into_iter()
            .filter(|code| (0x20..=0x7E).contains(code))
            .collect();
        let used = !codes.is_empty() && self.random.chance(75);
        if used && self.random.chance(60) {
            self.put(b"\r\x1BN\x04\x00");
            self.use_codes(&codes);
        }
        self.put(&made.bytes);
        if used {
            if self.random.chance(70) {
                self.put(b"\x1BN\x04\x00");
            }
            self.use_codes(&codes);
            if self.random.chance(40) {
                self.features();
                self.use_codes(&codes);
            }
            if self.random.chance(30) {
                self.put(b"\x1BO");
                self.use_codes(&codes);
            }
            if self.random.chance(70) {
                self.terminator();
            }
        }
    }

    fn use_codes(&mut self, codes: &[u8]) {
        for _ in 0..self.random.number(1..=6) {
            let code = self.random.pick(codes);
            self.put(&[code]);
        }
    }

    fn selection(&mut self) {
        match self.random.weighted(&[35, 15, 10, 10, 10, 10, 10]) {
            0 => self.put(b"\x1BN\x04\x00"),
            1 => self.put(b"\x1BO"),
            2 => self.put(b"\x1BN\x04\x01"),
            3 => self.put(b"\x1BN\x00\x04"),
            4 => self.put(b"\x1BN\x1B\x0A"),
            5 => self.put(b"\x1BN\x05\x00"),
            _ => {
                let pair = [self.random.byte(0..=255), self.random.byte(0..=255)];
                self.put(b"\x1BN");
                self.put(&pair);
            }
        }
        self.characters(3);
    }

    fn reset(&mut self) {
        if self.random.chance(40) {
            self.text();
        }
        self.put(b"\x1Bc");
        let byte = match self.random.chance(60) {
            true => 0x00,
            false => self
                .random
                .pick(&[0x01, 0x0A, 0x0C, 0x1B, b'0', b'A', 0xFF]),
        };
        self.put(&[byte]);
    }

    // Wrong bytes.

    /// Bytes that do nothing, stray ones, and unknown commands.
    fn wrong_bytes(&mut self) {
        for _ in 0..self.random.number(1..=4) {
            match self.random.below(4) {
                0 => {
                    let byte = self.random.pick(&[0x00, 0x07, 0x7F]);
                    self.put(&[byte]);
                }
                1 => {
                    let stray = self.random.pick(&[
                        0x01, 0x06, 0x08, 0x09, 0x0E, 0x0F, 0x1A, 0x1C, 0x1F, 0x80, 0xFF,
                    ]);
                    self.put(&[stray]);
                }
                2 => {
                    let letter = self
                        .random
                        .pick(b"0127EfnoyDXZ[\\\x00\x0A\x0C\x1B\x7F\x80\xD9");
                    self.put(&[0x1B, letter]);
                }
                _ => self.characters(2),
            }
        }
    }

    /// Bytes without sense, even ones or such as matter to the printer.
    fn noise(&mut self) {
        let even = self.random.chance(50);
        for _ in 0..self.random.number(1..=50) {
            let byte = match even {
                true => self.random.byte(0..=255),
                false => self
                    .random
                    .pick(b"\x1B\x1B\x1B\x1B\x1B[[FNOcde56<=>?ab124;rwz\x00\x00\x04\x0A\x0B\x0D\x7F\x80AB"),
            };
            self.put(&[byte]);
        }
        if self.random.chance(70) {
            // Ends what the noise may have begun.
            self.put(&[0x00]);
        }
        self.may_plot = true;
    }
}
