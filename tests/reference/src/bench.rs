//! A printer on the bench, for the tests: state and lent memory together.

use crate::calls::{close, feed, open, Answer, Closing, Fed};
use crate::lent::{Lent, FONT};
use crate::model::Model;
use crate::random::Random;
use crate::sheet::Form;
use crate::state::State;

pub struct Bench {
    pub state: State,
    pub lent: Lent,
}

impl Bench {
    pub fn open(model: Model, lines: u8, spacing: u8) -> Bench {
        Bench::with_font(model, lines, spacing, vec![0; FONT])
    }

    pub fn lp2(lines: u8, spacing: u8) -> Bench {
        Bench::open(Model::Lp2, lines, spacing)
    }

    pub fn m6215(lines: u8, spacing: u8) -> Bench {
        Bench::open(Model::M6215, lines, spacing)
    }

    pub fn with_font(model: Model, lines: u8, spacing: u8, font: Vec<u8>) -> Bench {
        let form = Form::opened(model, lines, spacing);
        let mut lent = Lent::new(model, form.page_bytes(), font);
        let (number, state) = open(model, lines, spacing, &mut lent);
        assert_eq!(number, 0);
        Bench { state, lent }
    }

    pub fn feed(&mut self, piece: &[u8]) -> Fed {
        feed(&mut self.state, &mut self.lent, piece)
    }

    /// Feeds a piece and its rests. Gives what a caller keeps: for each note
    /// its number and place, for each form 1 and the finishing byte's place. A
    /// blank page of the size that is due follows each form.
    pub fn run(&mut self, piece: &[u8]) -> Vec<(u8, u32)> {
        let mut kept = Vec::new();
        let mut rest = piece;
        loop {
            let fed = self.feed(rest);
            rest = &rest[fed.taken..];
            match fed.answer {
                Answer::UsedUp => {
                    assert!(rest.is_empty());
                    return kept;
                }
                Answer::Note(fault, place) => kept.push((fault.number(), place)),
                Answer::FormFinished => {
                    kept.push((1, self.state.job - 1));
                    self.lent.lend_page(self.state.form);
                }
                other => panic!("{other:?}"),
            }
        }
    }

    pub fn close(&self) -> Closing {
        close(&self.state)
    }

    /// The black dots, each a row and a grid position.
    pub fn black(&self) -> Vec<(usize, usize)> {
        let model = self.state.form.model;
        let rows = self.lent.page.len() / model.row_bytes();
        let dots = (0..rows).flat_map(|row| (0..positions(model)).map(move |grid| (row, grid)));
        dots.filter(|&(row, grid)| dot(model, &self.lent.page, row, grid))
            .collect()
    }
}

/// Grid positions in a row, by the documents.
pub fn positions(model: Model) -> usize {
    match model {
        Model::Lp2 => 6_600,
        Model::M6215 => 6_800,
    }
}

/// Is the dot black at a row and a grid position?
pub fn dot(model: Model, page: &[u8], row: usize, grid: usize) -> bool {
    let dot = positions(model) * row + grid;
    page[dot / 8] >> (7 - dot % 8) & 1 == 1
}

/// A page with some dots, with many, or with all but some.
pub fn dotted_page(random: &mut Random, bytes: usize) -> Vec<u8> {
    let mut page = match random.below(3) {
        0 => vec![0x00; bytes],
        1 => (0..bytes).map(|_| random.byte(0..=255)).collect(),
        _ => vec![0xFF; bytes],
    };
    for _ in 0..random.number(1..=500) {
        page[random.below(bytes)] ^= 1 << random.below(8);
    }
    assert!(page.iter().any(|&byte| byte != 0));
    page
}
