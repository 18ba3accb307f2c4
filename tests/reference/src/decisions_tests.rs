//! Refusals and their order, the job limit, closing, dots, and points that
//! docs/DECISIONS.md settles.

use crate::bench::Bench;
use crate::calls::{close, feed, open, Answer, Closing};
use crate::lent::Lent;
use crate::model::Model;
use crate::replay::replay;
use crate::sheet::{Line, Pitch, Row};
use crate::state::{Command, Due, State};

/// Lent memory for 5 lines at 6 an inch, its stores blank: rows of 825 and 850
/// bytes, line stores of 2,200 and 6,800 numbers.
fn blank(model: Model) -> Lent {
    let (row_bytes, numbers) = match model {
        Model::Lp2 => (825, 2_200),
        Model::M6215 => (850, 6_800),
    };
    Lent {
        page: vec![0; 5 * 12 * row_bytes],
        line: vec![0; numbers],
        staging: vec![0; 2_048],
        store: vec![0; 2_048],
        font: vec![0x11; 2_048],
    }
}

/// The same, its stores filled.
fn filled(model: Model) -> Lent {
    let mut lent = blank(model);
    lent.page.fill(1);
    lent.line.fill(2);
    lent.staging.fill(3);
    lent.store.fill(4);
    lent
}

/// Makes one store after the other too long or too short, the last one first.
fn misfits(model: Model) -> Vec<(u8, Lent)> {
    let mut lent = filled(model);
    let mut made = Vec::new();
    lent.font.pop();
    made.push((15, lent.clone()));
    lent.store.push(0);
    made.push((14, lent.clone()));
    lent.staging.pop();
    made.push((13, lent.clone()));
    lent.line.push(0);
    made.push((12, lent.clone()));
    lent.page.pop();
    made.push((11, lent));
    made
}

#[test]
fn opening_refuses_in_order_and_writes_nothing() {
    for (model, past) in [(Model::Lp2, 100), (Model::M6215, 113)] {
        for (number, lent) in misfits(model) {
            for (lines, spacing, expected) in [
                (5, 6, number),
                (0, 7, 18),
                (past, 6, 18),
                (255, 6, 18),
                (5, 7, 19),
            ] {
                let mut lent_on = lent.clone();
                let (answer, state) = open(model, lines, spacing, &mut lent_on);
                assert_eq!((answer, state), (expected, State::shut(model)));
                assert!(lent_on == lent);
            }
        }
    }
}

#[test]
fn opening_zeroes_all_but_the_font() {
    for model in Model::BOTH {
        let mut lent = filled(model);
        assert_eq!(open(model, 5, 6, &mut lent).0, 0);
        assert!(lent == blank(model));
    }
}

#[test]
fn feeding_refuses_in_order_and_writes_nothing() {
    for model in Model::BOTH {
        for (number, lent) in misfits(model) {
            let opened = Bench::open(model, 5, 6).state;
            for (state, expected) in [(opened, number), (State::shut(model), 10)] {
                let (mut state_on, mut lent_on) = (state.clone(), lent.clone());
                for piece in [&b"A\n"[..], &[]] {
                    let fed = feed(&mut state_on, &mut lent_on, piece);
                    assert_eq!((fed.answer.number(), fed.taken), (expected, 0));
                }
                assert_eq!(state_on, state);
                assert!(lent_on == lent);
            }
        }
    }
}

#[test]
fn unsound_states() {
    let spoilers: [fn(&mut State); 12] = [
        |state| state.form.lines = 0,
        |state| state.form.spacing = 7,
        |state| state.row = Row(52),
        |state| state.row = Row(u32::MAX),
        |state| (state.fresh, state.position) = (false, 6_801),
        |state| state.position = 1,
        |state| state.plot_line = true,
        |state| (state.fresh, state.plotting) = (false, true),
        |state| _ = state.tabs.insert(Line(6)),
        |state| _ = state.tabs.insert(Line(0)),
        |state| {
            state.started = Some(Command {
                place: 0,
                due: Due::Letter,
            })
        },
        |state| {
            (state.fresh, state.plot_line, state.plotting, state.job) = (false, true, true, 1);
            state.started = Some(Command {
                place: 0,
                due: Due::ResetByte,
            });
        },
    ];
    for (index, spoil) in spoilers.into_iter().enumerate() {
        for model in Model::BOTH {
            let mut state = Bench::open(model, 5, 6).state;
            assert!(state.is_sound());
            spoil(&mut state);
            assert!(!state.is_sound(), "spoiler {index}");
            assert_eq!(close(&state), Closing::Unsound);
        }
    }
}

/// The last position is W, by model and pitch.
#[test]
fn positions_to_the_line_s_end_are_sound() {
    for (model, pitch, width) in [
        (Model::Lp2, Pitch::Normal, 1_320),
        (Model::Lp2, Pitch::Compressed, 2_200),
        (Model::M6215, Pitch::Normal, 6_800),
        (Model::M6215, Pitch::Compressed, 6_800),
    ] {
        let mut state = Bench::open(model, 5, 6).state;
        (state.fresh, state.pitch, state.position) = (false, pitch, width);
        assert!(state.is_sound());
        state.position += 1;
        assert!(!state.is_sound());
    }
}

#[test]
fn job_limit() {
    let mut bench = Bench::lp2(5, 6);
    bench.state.job = u32::MAX - 2;
    let fed = bench.feed(b"ABC");
    assert_eq!((fed.answer, fed.taken), (Answer::JobFull, 2));
    assert_eq!(bench.state.job, u32::MAX);
    assert_eq!(bench.feed(&[]).answer, Answer::UsedUp);
    // The last byte that fits finishes a form: that is the answer, then 3.
    let mut bench = Bench::lp2(5, 6);
    bench.state.job = u32::MAX - 1;
    assert_eq!(bench.feed(b"\x0CA").answer, Answer::FormFinished);
    let fed = bench.feed(b"A");
    assert_eq!((fed.answer, fed.taken), (Answer::JobFull, 0));
}

#[test]
fn closings() {
    for (job, closing) in [
        (&b"A"[..], Closing::LineUnprinted),
        (b"A\r", Closing::Clean),
        (b"A\x1B", Closing::CommandUnfinished(1)),
        (b"\n\x1BF\x01\x02", Closing::CommandUnfinished(1)),
        (b"\x1Bd", Closing::LineUnprinted),
        (b"\x1Bd\x05\x1B", Closing::CommandUnfinished(3)),
        (b"\x1BY\x00\x00\x00\x00", Closing::CommandUnfinished(0)),
        (b"A\x1Bc\x00", Closing::Clean),
    ] {
        for model in Model::BOTH {
            let mut bench = Bench::open(model, 5, 6);
            assert_eq!(bench.run(job), []);
            assert_eq!(bench.close(), closing);
        }
    }
}

/// "!" with wire 1 in column 0 and wire 9 in column 6.
pub fn font_of_one_glyph() -> Vec<u8> {
    let mut font = vec![0; 2_048];
    let glyph = [0, 0, 1, 0, 0, 0, 0, 0, 0, 0, 0, 0, 0, 0, 0, 1];
    font[16 * 0x21..16 * 0x22].copy_from_slice(&glyph);
    font
}

/// Lines of one pitch have the same dots on both models.
#[test]
fn struck_dots() {
    for model in Model::BOTH {
        let mut bench = Bench::with_font(model, 5, 6, font_of_one_glyph());
        assert_eq!(bench.run(b"!!\n"), []);
        assert_eq!(bench.black(), [(0, 0), (0, 50), (8, 30), (8, 80)]);
        let mut bench = Bench::with_font(model, 5, 6, font_of_one_glyph());
        assert_eq!(bench.run(b"\x1B>\x1B<\x1Ba!\r"), []);
        assert_eq!(
            bench.black(),
            [0, 3]
                .map(|grid| (0, grid))
                .into_iter()
                .chain([0, 6, 12, 18, 24, 30, 36, 39, 42, 48, 54].map(|grid| (8, grid)))
                .collect::<Vec<_>>()
        );
    }
}

#[test]
fn places_of_notes() {
    for (job, kept) in [
        // A doubled ESC past the line has the place of its first ESC.
        (
            [b"\x1Bd", &[1; 1_320][..], b"\x1B\x1B\x80\x1B\x00\x02"].concat(),
            vec![(44, 1_322), (46, 1_324), (46, 1_325), (44, 1_327)],
        ),
        // A list item has its own, and the list goes on.
        (b"\x1BF\x06\x05\x1B\x00A".to_vec(), vec![(48, 2), (48, 4)]),
        (
            b" \x1BcA\x1BN\x04\x04\x1B\x1B".to_vec(),
            vec![(46, 1), (46, 4), (42, 8)],
        ),
        (
            b"\x1Bd\x1Be\x1B>A\x1Bd\x1B?\x08".to_vec(),
            vec![(46, 4), (46, 6), (46, 7), (46, 9), (46, 11)],
        ),
    ] {
        assert_eq!(Bench::lp2(5, 6).run(&job), kept);
    }
}

#[test]
fn download_checks_in_order() {
    let download = |count: u16, address: u16, payload: &[u8], off: u8| {
        let sum = payload
            .iter()
            .fold(0_u8, |sum, &byte| sum.wrapping_add(byte));
        let [a, b] = count.to_be_bytes();
        let [c, d] = address.to_be_bytes();
        [
            &[0x1B, b'Y', a, b, c, d],
            payload,
            &[sum.wrapping_neg().wrapping_add(off)],
        ]
        .concat()
    };
    let bad = [0, 1, 0, 0, 0, 0, 0, 0, 0, 0, 0, 0, 0, 0, 0, 0];
    for (job, kept) in [
        (download(16, 2_032, &bad, 1), vec![(45, 0)]),
        (download(16, 2_032, &bad, 0), vec![(46, 0)]),
        (download(16, 4_080, &bad, 0), vec![(80, 0)]),
        (download(16, 4_096, &[0; 16], 0), vec![(46, 0)]),
        (download(32, 65_520, &[0; 32], 0), vec![(46, 0)]),
        (download(0, 2_048, &[], 0), vec![(46, 0)]),
        (download(0, 2_048, &[], 1), vec![(45, 0)]),
        (download(8, 2_048, &[0; 8], 0), vec![(46, 0)]),
        (download(16, 2_056, &[0; 16], 0), vec![(46, 0)]),
        (download(2_064, 2_048, &[0; 2_064], 0), vec![(46, 0)]),
        (download(2_048, 2_048, &[0; 2_048], 0), vec![]),
    ] {
        for model in Model::BOTH {
            assert_eq!(Bench::open(model, 5, 6).run(&job), kept);
        }
    }
}

#[test]
fn vertical_tabs() {
    let mut bench = Bench::lp2(5, 8);
    assert_eq!(bench.run(b"\x1BF\x02\x04\x00\x0B"), []);
    assert_eq!(bench.state.row, Row(9));
    assert_eq!(bench.run(b"\x0B"), []);
    assert_eq!(bench.state.row, Row(27));
    assert_eq!(bench.run(b"A\x1B6\x0B"), [(1, 10)]);
    assert_eq!(bench.state.row, Row(9));
}

#[test]
fn reset_keeps_the_row() {
    let mut bench = Bench::lp2(5, 6);
    assert_eq!(
        bench.run(b"\n\x1B5\x1B>\x1B<\x1Ba\x1BN\x04\x00A\x1Bc\x00"),
        []
    );
    let mut expected = Bench::lp2(5, 6).state;
    (expected.row, expected.job) = (Row(12), bench.state.job);
    assert_eq!(bench.state, expected);
    assert_eq!(bench.state.pitch, Pitch::Normal);
    assert_eq!(bench.lent.line, vec![0; 2_200]);
}

/// Adds a script, preceded by what is given as its length.
fn add_script(input: &mut Vec<u8>, length: u32, parts: &[&[u8]]) {
    input.extend(length.to_be_bytes());
    input.extend(parts.concat());
}

fn replayed(input: &[u8]) -> String {
    let mut output = Vec::new();
    replay(input, &mut output).unwrap();
    String::from_utf8(output).unwrap()
}

const BLANK_FONT: &[u8] = &[0; 2_048];

/// Scripts of a wrong length, a refused opening, and an input cut short.
#[test]
fn replayed_scripts() {
    let mut input = Vec::new();
    add_script(&mut input, 2_050, &[&[5; 2_050]]);
    add_script(&mut input, 2_051, &[&[0, 0, 8], BLANK_FONT]);
    let pieces = b"\x00\x00\x00\x03A\x08\n\x00\x09\x1B5\x1B";
    add_script(&mut input, 2_051 + 12, &[&[0, 1, 8], BLANK_FONT, pieces]);
    add_script(&mut input, 2_051, &[&[0; 100]]);
    // 1 × 9 × 825 zero bytes: a = 1, b = 7,425.
    let expected = "SCRIPT 1\nREFUSED SCRIPT\nSCRIPT 2\nOPEN 18\nSCRIPT 3\nOPEN 0\n\
        FED 0 0\nFED 2 2 46 1\nFED 1 1\nFORM 1 1d010001\nFED 0 3\nCLOSE OPEN 5\n\
        PAGE 1d010001\nLINE 11300001\nSTAGING 08000001\nSTORE 08000001\n\
        HEAD 0 0 0 0 0 0 1 0 0\nJOB 6\nTABS 1\nSCRIPT 4\n";
    assert_eq!(replayed(&input), expected);
}

/// A 6215's script: a form finished, then one of another size; and scripts of
/// no model, refused once they are read.
#[test]
fn replayed_scripts_of_the_6215() {
    let mut input = Vec::new();
    add_script(&mut input, 2_051, &[&[2, 1, 8], BLANK_FONT]);
    add_script(&mut input, 2_051, &[&[255, 0, 7], BLANK_FONT]);
    add_script(&mut input, 2_051, &[&[1, 113, 8], BLANK_FONT]);
    add_script(&mut input, 2_051, &[&[1, 112, 7], BLANK_FONT]);
    // A form of 2 lines with N2 = 2 from the first piece, whose rest is a
    // condensed A; then a spacing out of place.
    let pieces = b"\x00\x0C\x1B[02;2;2r\x1B>A\x00\x04\x1B[1z";
    add_script(&mut input, 2_051 + 20, &[&[1, 1, 8], BLANK_FONT, pieces]);
    add_script(&mut input, 2_050, &[&[1; 2_050]]);
    add_script(&mut input, 2_051, &[&[9; 100]]);
    // Zero bytes: a = 1; b = 9 × 850 = 7,650 = 1DE2, then 2 × 9 × 850 = 15,300 =
    // 3BC4; of the line store 13,600 = 3520.
    let expected = "SCRIPT 1\nREFUSED SCRIPT\nSCRIPT 2\nREFUSED SCRIPT\n\
        SCRIPT 3\nOPEN 18\nSCRIPT 4\nOPEN 19\nSCRIPT 5\nOPEN 0\n\
        FED 1 9\nFORM 1 1de20001\nFED 0 3\nFED 2 4 43 12\nCLOSE LINE\n\
        PAGE 3bc40001\nLINE 35200001\nSTAGING 08000001\nSTORE 08000001\n\
        HEAD 9 30 1 0 0 0 0 0 0\nMARGINS 2 8 2 2\nJOB 16\nTABS\n\
        SCRIPT 6\nREFUSED SCRIPT\nSCRIPT 7\n";
    assert_eq!(replayed(&input), expected);
}
