//! Document 02, #111: a line's positions may be struck in any order, and again.

use crate::bench::{dot, dotted_page, positions};
use crate::model::Model;
use crate::random::Random;
use crate::sheet::{strike, strike_position, Form, Pitch, Row};

/// A line, and the page, row and pitch with which it is struck.
struct Case {
    model: Model,
    page: Vec<u8>,
    line: Vec<u16>,
    row: Row,
    pitch: Pitch,
}

impl Case {
    fn new(random: &mut Random, model: Model, line: Vec<u16>, pitch: Pitch) -> Case {
        let form = Form::opened(model, random.byte(1..=9), random.pick(&[6, 8]));
        let lowest = form.rows() as usize - 9;
        let between = random.number(0..=lowest);
        Case {
            model,
            page: dotted_page(random, form.page_bytes()),
            line,
            row: Row(random.pick(&[0, between, between, lowest]) as u32),
            pitch,
        }
    }

    /// W, by the documents.
    fn width(&self) -> usize {
        width(self.model, self.pitch)
    }

    /// A page on which the line was struck.
    fn struck(&self, page: &[u8]) -> Vec<u8> {
        let mut page = page.to_vec();
        let mut line = self.line.clone();
        strike(&mut page, &mut line, self.row, self.model, self.pitch);
        page
    }

    /// The case's page on which these positions were struck one by one.
    fn positions_struck(&self, positions: impl IntoIterator<Item = usize>) -> Vec<u8> {
        let mut page = self.page.clone();
        for position in positions {
            let grid = self.model.grid(position, self.pitch);
            strike_position(&mut page, self.line[position], self.row, self.model, grid);
        }
        page
    }

    /// Has a position a set wire for this dot? All grid positions of a row lie
    /// before that of position W.
    fn strikes(&self, row: usize, grid: usize) -> bool {
        let apart = match (self.model, self.pitch) {
            (Model::Lp2, Pitch::Normal) => 5,
            (Model::Lp2, Pitch::Compressed) => 3,
            (Model::M6215, _) => 1,
        };
        let (top, position) = (self.row.0 as usize, grid / apart);
        (top..top + 9).contains(&row)
            && apart * position == grid
            && self.line[position] >> (8 - (row - top)) & 1 == 1
    }
}

/// W, by the documents.
fn width(model: Model, pitch: Pitch) -> usize {
    match (model, pitch) {
        (Model::Lp2, Pitch::Normal) => 1_320,
        (Model::Lp2, Pitch::Compressed) => 2_200,
        (Model::M6215, _) => 6_800,
    }
}

fn shuffle<T>(random: &mut Random, things: &mut [T]) {
    for last in (1..things.len()).rev() {
        things.swap(last, random.below(last + 1));
    }
}

/// Lines nearly empty, half full and full. For each model and pitch every
/// 16-bit number stands below W in one of them; from W on stand any numbers.
fn cases(random: &mut Random) -> Vec<Case> {
    let mut cases = Vec::new();
    for model in Model::BOTH {
        for pitch in [Pitch::Normal, Pitch::Compressed] {
            let width = width(model, pitch);
            let mut numbers: Vec<u16> = (0..=u16::MAX).collect();
            shuffle(random, &mut numbers);
            while !numbers.is_empty() {
                let count = random.pick(&[20, width / 2, width]).min(numbers.len());
                let mut line = numbers.split_off(numbers.len() - count);
                line.resize(width, 0);
                shuffle(random, &mut line);
                line.resize_with(model.line_store(), || random.below(65_536) as u16);
                cases.push(Case::new(random, model, line, pitch));
            }
        }
    }
    cases
}

/// Every position below W, some of them again, in any order.
fn any_order(random: &mut Random, width: usize) -> Vec<usize> {
    let mut order: Vec<usize> = (0..width).collect();
    let again = random.number(0..=width);
    order.extend((0..again).map(|_| random.below(width)));
    shuffle(random, &mut order);
    order
}

#[test]
fn positions_struck_in_any_order_leave_the_same_page() {
    let mut random = Random::new(111);
    for case in cases(&mut random) {
        let width = case.width();
        let struck = case.struck(&case.page);
        assert!(case.positions_struck(0..width) == struck);
        assert!(case.positions_struck((0..width).rev()) == struck);
        assert!(case.positions_struck(any_order(&mut random, width)) == struck);
    }
}

#[test]
fn set_wires_blacken_their_dots_and_all_others_stay() {
    for case in cases(&mut Random::new(112)) {
        let struck = case.struck(&case.page);
        assert_eq!(struck.len(), case.page.len());
        let positions = positions(case.model);
        for row in 0..8 * struck.len() / positions {
            for grid in 0..positions {
                let black = dot(case.model, &case.page, row, grid) || case.strikes(row, grid);
                assert_eq!(dot(case.model, &struck, row, grid), black);
            }
        }
    }
}

#[test]
fn the_same_line_struck_again_changes_nothing() {
    for case in cases(&mut Random::new(113)) {
        let once = case.struck(&case.page);
        assert!(case.struck(&once) == once);
    }
}
