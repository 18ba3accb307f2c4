//! Document 01, "The proved table", cases A to L, and "The listing program": of
//! the LP2 as written, of the 6215 with its width.

use crate::bench::Bench;
use crate::calls::{Answer, Closing};
use crate::model::Model;
use crate::sheet::Row;

fn benches() -> [Bench; 2] {
    Model::BOTH.map(|model| Bench::open(model, 66, 6))
}

fn benches_at(row: u32) -> [Bench; 2] {
    let mut benches = benches();
    for bench in &mut benches {
        bench.state.row = Row(row);
        assert!(bench.state.is_sound());
    }
    benches
}

#[test]
fn a_empty_job() {
    for mut bench in benches() {
        let fed = bench.feed(&[]);
        assert_eq!((fed.answer.number(), fed.taken), (0, 0));
        assert_eq!(bench.close(), Closing::Clean);
    }
}

/// 132 and 136 characters of 10 columns: 1,320 columns, 6,800 grid positions.
#[test]
fn b_line_of_one_too_many() {
    for (mut bench, fit, width) in with(benches(), [(132, 1_320), (136, 6_800)]) {
        let fed = bench.feed(&vec![0x41; fit + 1]);
        assert_eq!((fed.answer.number(), fed.taken), (2, fit + 1));
        let Answer::Note(fault, place) = fed.answer else {
            panic!("{fed:?}");
        };
        assert_eq!((fault.number(), place as usize), (44, fit));
        assert_eq!(bench.state.position, width);
    }
}

/// 66 and 68 of 20 columns.
#[test]
fn c_elongated_line_of_one_too_many() {
    for (mut bench, fit, width) in with(benches(), [(66, 1_320), (68, 6_800)]) {
        let job = [&[0x1B, 0x3C], &vec![0x41; fit + 1][..]].concat();
        assert_eq!(bench.run(&job), [(44, fit as u32 + 2)]);
        assert_eq!(bench.state.position, width);
    }
}

/// A column takes one number of an LP2's line store, five of a 6215's.
#[test]
fn d_plotted_column() {
    for (mut bench, taken, _) in with(benches(), [(1, 0), (5, 0)]) {
        assert_eq!(bench.run(&[0x1B, 0x64, 0x7F]), []);
        assert_eq!(bench.lent.line[0], 127);
        assert!(bench.lent.line[1..].iter().all(|&number| number == 0));
        assert_eq!(bench.state.position, taken);
    }
}

#[test]
fn e_plotted_escape() {
    for (mut bench, taken, _) in with(benches(), [(1, 0), (5, 0)]) {
        assert_eq!(bench.run(&[0x1B, 0x64, 0x1B, 0x1B]), []);
        assert_eq!(bench.lent.line[0], 27);
        assert!(bench.lent.line[1..].iter().all(|&number| number == 0));
        assert_eq!(bench.state.position, taken);
    }
}

#[test]
fn f_vertical_tab_to_line_10() {
    for mut bench in benches() {
        assert_eq!(bench.run(&[0x1B, 0x46, 0x0A, 0x00, 0x0B]), []);
        assert_eq!(bench.state.row, Row(108));
    }
}

#[test]
fn g_vertical_tab_without_tabs() {
    for mut bench in benches() {
        assert_eq!(bench.run(&[0x0B]), []);
        assert_eq!(bench.state.row, Row(0));
    }
}

const H_HEADER: [u8; 6] = [0o033, 0o131, 0o000, 0o020, 0o014, 0o040];
const H_PAYLOAD: [u8; 16] = [
    0o000, 0o000, 0o001, 0o004, 0o000, 0o370, 0o001, 0o004, //
    0o000, 0o040, 0o001, 0o004, 0o000, 0o040, 0o000, 0o330,
];

#[test]
fn h_download() {
    for mut bench in benches() {
        assert_eq!(
            bench.run(&[&H_HEADER[..], &H_PAYLOAD, &[0o341]].concat()),
            []
        );
        let mut store = vec![0; 2_048];
        store[1_056..1_072].copy_from_slice(&H_PAYLOAD);
        assert_eq!(bench.lent.store, store);
    }
}

#[test]
fn h_download_with_a_wrong_checksum() {
    for mut bench in benches() {
        assert_eq!(
            bench.run(&[&H_HEADER[..], &H_PAYLOAD, &[0o340]].concat()),
            [(45, 0)]
        );
        assert_eq!(bench.lent.store, vec![0; 2_048]);
    }
}

#[test]
fn i_newline_at_the_form_s_end() {
    for mut bench in benches_at(780) {
        assert_eq!(bench.run(&[0x0A]), [(1, 0)]);
        assert_eq!(bench.state.row, Row(0));
    }
    for mut bench in benches_at(768) {
        assert_eq!(bench.run(&[0x0A]), []);
        assert_eq!(bench.state.row, Row(780));
    }
}

#[test]
fn j_newline_on_a_plot_line() {
    for (row, forms, after) in [(776, vec![], 783), (777, vec![(1, 0)], 0)] {
        for mut bench in benches_at(row) {
            bench.state.plot_line = true;
            bench.state.fresh = false;
            assert_eq!(bench.run(&[0x0A]), forms);
            assert_eq!(bench.state.row, Row(after));
        }
    }
}

#[test]
fn k_plot_line_then_newline() {
    for mut bench in benches() {
        assert_eq!(bench.run(&[0x1B, 0x64, 0x01, 0x1B, 0x65, 0x0A]), []);
        assert_eq!(bench.state.row, Row(7));
    }
    for mut bench in benches() {
        assert_eq!(bench.run(&[0x1B, 0x64, 0x01, 0x1B, 0x65, 0x0D, 0x0A]), []);
        assert_eq!(bench.state.row, Row(12));
    }
}

#[test]
fn l_unknown_command() {
    for mut bench in benches() {
        assert_eq!(bench.run(&[0x1B, 0x30]), [(42, 0)]);
    }
}

/// 41 1B 3E 0A 0C with L = 5 at 6 an inch: one note, one form, clean. On a 6215
/// the pitch may change in a line, and there is no note.
#[test]
fn listing_example() {
    for (model, expected) in [
        (Model::Lp2, "JOB 5 6\nNOTE 46 1\nPAGE 1 4\nEND 5 CLEAN\n"),
        (Model::M6215, "JOB 5 6\nPAGE 1 4\nEND 5 CLEAN\n"),
    ] {
        let mut bench = Bench::open(model, 5, 6);
        let mut listing = String::from("JOB 5 6\n");
        let mut forms = 0;
        for (number, place) in bench.run(&[0x41, 0x1B, 0x3E, 0x0A, 0x0C]) {
            if number == 1 {
                forms += 1;
                listing += &format!("PAGE {forms} {place}\n");
            } else {
                listing += &format!("NOTE {number} {place}\n");
            }
        }
        assert_eq!(bench.close(), Closing::Clean);
        listing += &format!("END {} CLEAN\n", bench.state.job);
        assert_eq!(listing, expected);
    }
}

/// Each bench with what is expected of it.
fn with(
    benches: [Bench; 2],
    expected: [(usize, usize); 2],
) -> impl Iterator<Item = (Bench, usize, usize)> {
    let pairs = benches.into_iter().zip(expected);
    pairs.map(|(bench, (first, second))| (bench, first, second))
}
