//! Document 02, #113: a line is struck only where r + 9 ≤ L × R, so that every
//! dot falls on the form; and #105: only from N2's first row to N3's last.

use crate::bench::Bench;
use crate::calls::{Answer, Closing};
use crate::lent::FONT;
use crate::model::Model;
use crate::random::Random;
use crate::sheet::{Line, Row};
use std::collections::BTreeSet;

/// Every form: model, L, its spacing, and R.
fn forms() -> impl Iterator<Item = (Model, u8, u8, u32)> {
    let lp2 = (1..=99).map(|lines| (Model::Lp2, lines));
    let m6215 = (1..=112).map(|lines| (Model::M6215, lines));
    lp2.chain(m6215)
        .flat_map(|(model, lines)| [(model, lines, 6, 12), (model, lines, 8, 9)])
}

/// A bench at a row, every wire of every position set in its line store.
fn full_line_at(model: Model, lines: u8, spacing: u8, row: u32) -> Bench {
    let mut bench = Bench::open(model, lines, spacing);
    bench.state.row = Row(row);
    bench.lent.line.fill(0x1FF);
    bench
}

/// A page on which a full line of normal pitch blackened nine rows from one on.
/// Every fifth dot of an LP2's rows is then black, every dot of a 6215's.
fn struck_at(model: Model, rows: u32, row: u32) -> Vec<u8> {
    let mut struck = match model {
        Model::Lp2 => vec![0; 825],
        Model::M6215 => vec![0xFF; 850],
    };
    if model == Model::Lp2 {
        for grid in (0..6_600).step_by(5) {
            struck[grid / 8] |= 0x80 >> (grid % 8);
        }
    }
    let blank = |rows: u32| vec![0; struck.len() * rows as usize];
    [blank(row), struck.repeat(9), blank(rows - row - 9)].concat()
}

#[test]
fn the_lowest_row_is_struck_on_the_form() {
    for (model, lines, spacing, line_rows) in forms() {
        let rows = u32::from(lines) * line_rows;
        let (lowest, last_line) = (rows - 9, rows - line_rows);
        let last_tab = Some(Line(lines));
        let struck = struck_at(model, rows, lowest);
        for (byte, tab, plot_line, answer, row) in [
            (0x0A, None, false, Answer::FormFinished, 0),
            (0x0A, None, true, Answer::FormFinished, 0),
            (0x0B, None, false, Answer::UsedUp, lowest),
            (0x0B, last_tab, false, Answer::FormFinished, last_line),
            (0x0C, None, false, Answer::FormFinished, 0),
            (0x0D, None, false, Answer::UsedUp, lowest),
        ] {
            let mut bench = full_line_at(model, lines, spacing, lowest);
            bench.state.tabs.extend(tab);
            (bench.state.fresh, bench.state.plot_line) = (!plot_line, plot_line);
            assert!(bench.state.is_sound());
            let fed = bench.feed(&[byte]);
            assert_eq!((fed.answer, fed.taken), (answer, 1));
            assert_eq!(bench.state.row, Row(row));
            assert!(bench.state.is_sound());
            assert!(bench.lent.page == struck);
        }
    }
}

#[test]
fn the_row_past_the_lowest_is_refused() {
    for (model, lines, spacing, line_rows) in forms() {
        let mut bench = full_line_at(model, lines, spacing, u32::from(lines) * line_rows - 8);
        let (state, lent) = (bench.state.clone(), bench.lent.clone());
        for terminator in [0x0A, 0x0B, 0x0C, 0x0D] {
            // A byte before the terminator is not taken either.
            let fed = bench.feed(&[b'A', terminator]);
            assert_eq!((fed.answer, fed.taken), (Answer::Refused(10), 0));
            assert_eq!(bench.state, state);
            assert!(bench.lent == lent);
        }
        assert_eq!(bench.close(), Closing::Unsound);
    }
}

/// Margins of a form of 7 lines at 6 an inch: N2 and N3, the first row of N2 and
/// the lowest row, 12 × N3 − 9.
const MARGINS: [(u8, u8, u32, u32); 5] = [
    (1, 7, 0, 75),
    (1, 1, 0, 3),
    (3, 5, 24, 51),
    (4, 4, 36, 39),
    (7, 7, 72, 75),
];

/// A bench of such a form at a row, with a full line.
fn full_line_within(top: u8, bottom: u8, row: u32) -> Bench {
    let mut bench = full_line_at(Model::M6215, 7, 6, row);
    (bench.state.form.top, bench.state.form.bottom) = (Line(top), Line(bottom));
    bench
}

#[test]
fn within_margins_the_lowest_row_ends_the_form() {
    for (top, bottom, start, lowest) in MARGINS {
        let last_line = 12 * u32::from(bottom) - 12;
        let tab = Some(Line(bottom));
        for (byte, tab, plot_line, answer, row) in [
            (0x0A, None, false, Answer::FormFinished, start),
            (0x0A, None, true, Answer::FormFinished, start),
            (0x0B, None, false, Answer::UsedUp, lowest),
            (0x0B, tab, false, Answer::FormFinished, last_line),
            (0x0C, None, false, Answer::FormFinished, start),
            (0x0D, None, false, Answer::UsedUp, lowest),
        ] {
            let mut bench = full_line_within(top, bottom, lowest);
            bench.state.tabs.extend(tab);
            (bench.state.fresh, bench.state.plot_line) = (!plot_line, plot_line);
            assert!(bench.state.is_sound());
            let fed = bench.feed(&[byte]);
            assert_eq!((fed.answer, fed.taken), (answer, 1));
            assert_eq!(bench.state.row, Row(row));
            assert!(bench.state.is_sound());
            assert!(bench.lent.page == struck_at(Model::M6215, 84, lowest));
        }
    }
}

#[test]
fn rows_outside_the_margins_are_refused() {
    for (top, bottom, start, lowest) in MARGINS {
        for row in [start, lowest] {
            assert!(full_line_within(top, bottom, row).state.is_sound());
        }
        for row in [start.checked_sub(1), Some(lowest + 1)]
            .into_iter()
            .flatten()
        {
            let mut bench = full_line_within(top, bottom, row);
            let (state, lent) = (bench.state.clone(), bench.lent.clone());
            let fed = bench.feed(b"\x0D");
            assert_eq!((fed.answer, fed.taken), (Answer::Refused(10), 0));
            assert_eq!(bench.state, state);
            assert!(bench.lent == lent);
            assert_eq!(bench.close(), Closing::Unsound);
        }
    }
}

/// Terminators, plot lines, characters, tabs within the form and past it, and
/// now and then any byte.
fn paper_moving_job(random: &mut Random) -> Vec<u8> {
    let mut job = Vec::new();
    while job.len() < 1_500 {
        match random.weighted(&[30, 50, 10, 5, 10]) {
            0 => job.push(random.pick(b"\x0A\x0A\x0A\x0A\x0A\x0B\x0D")),
            1 => job.extend(b"\x1Bd\x7F\x1Be\x0A"),
            2 => job.extend([0x1B, random.pick(b"56>?"), b'A']),
            3 => job.extend([0x1B, b'F', random.byte(1..=120), 0x00]),
            _ => job.push(random.byte(0..=255)),
        }
    }
    job
}

/// A form feed, and a change of form or spacing.
fn form_change(random: &mut Random) -> Vec<u8> {
    let lines = random.byte(1..=9);
    let top = random.byte(1..=lines);
    let bottom = random.byte(top..=lines);
    // Plot lines come to every row where there is room for some twelve.
    let (lines, top, bottom) = random.pick(&[(lines, top, bottom), (12, 2, 11), (11, 1, 11)]);
    let change = match random.chance(70) {
        true => format!("\x0C\x1B[{lines};{top};{bottom}r"),
        false => format!("\x0C\x1B[{}z", random.byte(1..=2)),
    };
    change.into_bytes()
}

/// The glyphs are black all over, so that a line struck beyond the form would
/// reach past the page.
#[test]
fn every_byte_keeps_the_row_on_the_form() {
    let mut random = Random::new(113);
    let mut lowest_reached = BTreeSet::new();
    for (model, lines, spacing, line_rows) in forms() {
        let rows = u32::from(lines) * line_rows;
        let mut bench = Bench::with_font(model, lines, spacing, vec![0xFF; FONT]);
        for byte in paper_moving_job(&mut random) {
            bench.run(&[byte]);
            let end = bench.state.row.0 + 9;
            assert!(end <= rows);
            if end == rows {
                lowest_reached.insert((model.number(), spacing));
            }
        }
    }
    assert_eq!(
        lowest_reached,
        BTreeSet::from([(0, 6), (0, 8), (1, 6), (1, 8)])
    );
}

/// The same while forms, margins and spacing change.
#[test]
fn every_byte_keeps_the_row_within_the_margins() {
    let mut random = Random::new(105);
    let mut lowest_reached = BTreeSet::new();
    for _ in 0..20 {
        let mut bench = Bench::with_font(Model::M6215, 9, 6, vec![0xFF; FONT]);
        for _ in 0..8 {
            let change = form_change(&mut random);
            let moves = paper_moving_job(&mut random);
            for &byte in change.iter().chain(&moves[..600]) {
                bench.run(&[byte]);
                let form = bench.state.form;
                let line_rows = if form.spacing == 6 { 12 } else { 9 };
                let row = bench.state.row.0;
                assert!(row >= (u32::from(form.top.0) - 1) * line_rows);
                assert!(row + 9 <= u32::from(form.bottom.0) * line_rows);
                if row + 9 == u32::from(form.bottom.0) * line_rows {
                    lowest_reached.insert((form.spacing, form.bottom.0 < form.lines));
                }
            }
            // Out of whatever the moves have left begun.
            bench.run(b"\x00\x00\x1Be");
        }
    }
    assert_eq!(lowest_reached.len(), 4);
}
