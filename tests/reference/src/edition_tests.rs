//! Document 02, #105, the 6215 edition: what docs/DECISIONS.md settles of it,
//! row by row.

use crate::bench::Bench;
use crate::bracket::Bracket;
use crate::calls::{close, open, Answer, Closing, Fed};
use crate::decisions_tests::font_of_one_glyph;
use crate::lent::Lent;
use crate::model::Model;
use crate::sheet::{Line, Pitch, Row};
use crate::state::{Command, Due, State};

/// A 6215 with a form of 66 lines at 6 an inch.
fn bench() -> Bench {
    Bench::m6215(66, 6)
}

/// A 6215 whose form was set so, with the job at place 0 again.
fn bench_with(lines: u8, top: u8, bottom: u8) -> Bench {
    let mut bench = Bench::m6215(lines, 6);
    let setting = format!("\x1B[;{top};{bottom}r");
    assert_eq!(
        bench.run(setting.as_bytes()),
        [(1, setting.len() as u32 - 1)]
    );
    bench.state.job = 0;
    assert!(bench.state.is_sound());
    bench
}

/// L, spacing, N2 and N3.
fn form(state: &State) -> (u8, u8, u8, u8) {
    let form = state.form;
    (form.lines, form.spacing, form.top.0, form.bottom.0)
}

/// The state but for the job's length.
fn but_for_the_job(state: &State) -> State {
    State {
        job: 0,
        ..state.clone()
    }
}

/// Runs a job that gives one note and changes nothing else.
fn assert_refused(mut bench: Bench, job: &[u8], number: u8, place: u32) {
    let (state, lent) = (but_for_the_job(&bench.state), bench.lent.clone());
    assert_eq!(bench.run(job), [(number, place)], "{job:02X?}");
    assert_eq!(but_for_the_job(&bench.state), state, "{job:02X?}");
    assert!(bench.lent == lent, "{job:02X?}");
}

// Which rules are the 6215's.

/// The bytes after the [ are characters on an LP2.
#[test]
fn the_bracket_is_unknown_to_an_lp2() {
    let mut bench = Bench::lp2(66, 6);
    let fed = bench.feed(b"\x1B[4w");
    assert!(matches!(fed.answer, Answer::Note(fault, 0) if fault.number() == 42));
    assert_eq!(fed.taken, 2);
    assert_eq!(bench.run(b"4w"), []);
    assert_eq!(bench.state.position, 20);
    let mut bench = Bench::lp2(66, 6);
    assert_eq!(bench.run(b"\x1B[1z\x1B[5;1;5r"), [(42, 0), (42, 4)]);
    assert_eq!(form(&bench.state), (66, 6, 1, 66));
}

#[test]
fn what_is_not_named_stays() {
    // Plot mode begins on fresh lines only, a character on a plot line is
    // refused, and stray bytes are.
    assert_eq!(bench().run(b"A\x1Bd"), [(46, 1)]);
    assert_eq!(bench().run(b"\x1Bd\x1BeA"), [(46, 4)]);
    assert_eq!(bench().run(b"\x08\x9B"), [(46, 0), (46, 1)]);
    assert_eq!(bench().run(b"\x1BF\x42\x43\x70\x00"), [(48, 3), (48, 4)]);
}

// What a position is.

#[test]
fn a_line_of_mixed_pitches() {
    let mut bench = Bench::with_font(Model::M6215, 5, 6, font_of_one_glyph());
    assert_eq!(bench.run(b"!\x1B>!\x1B?!"), []);
    // 10 × 5, 10 × 3 and 10 × 5 positions.
    assert_eq!(bench.state.position, 130);
    let entered: Vec<(usize, u16)> = (0..6_800)
        .map(|position| (position, bench.lent.line[position]))
        .filter(|&(_, number)| number != 0)
        .collect();
    assert_eq!(
        entered,
        [(0, 256), (30, 1), (50, 256), (68, 1), (80, 256), (110, 1)]
    );
    assert_eq!(bench.run(b"\r"), []);
    assert_eq!(
        bench.black(),
        [(0, 0), (0, 50), (0, 80), (8, 30), (8, 68), (8, 110)]
    );
    assert!(bench.lent.line.iter().all(|&number| number == 0));
}

/// Elongated, glyph column k goes to columns 2k and 2k + 1 of 20; the underscore
/// is at the even columns.
#[test]
fn a_wide_underscored_cell_behind_a_narrow_one() {
    let mut bench = Bench::with_font(Model::M6215, 5, 6, font_of_one_glyph());
    // The first cell ends at 30, an even column of a line in one pitch no more.
    assert_eq!(bench.run(b"\x1B[6w \x1B[0w\x1Ba!\r"), []);
    let mut expected = vec![(0, 30), (0, 35)];
    // Even columns at 30, 40 .. 120; column 6 in columns 12 and 13.
    let bottom = [30, 40, 50, 60, 70, 80, 90, 95, 100, 110, 120];
    expected.extend(bottom.map(|grid| (8, grid)));
    assert_eq!(bench.black(), expected);
}

/// Even columns count from the cell's start, also where a foreign state starts
/// it at an odd position.
#[test]
fn a_cell_underscored_from_an_odd_position() {
    for (model, expected) in [
        (Model::Lp2, [31, 33, 35, 37, 39]),
        (Model::M6215, [31, 41, 51, 61, 71]),
    ] {
        let mut bench = Bench::open(model, 5, 6);
        (bench.state.fresh, bench.state.position) = (false, 31);
        assert_eq!(bench.run(b"\x1Ba "), []);
        let entered: Vec<usize> = (0..bench.lent.line.len())
            .filter(|&position| bench.lent.line[position] == 1)
            .collect();
        assert_eq!(entered, expected);
    }
}

#[test]
fn plotted_columns_stand_at_the_first_of_their_positions() {
    let mut bench = Bench::m6215(5, 6);
    assert_eq!(
        bench.run(b"\x1Bd\x40\x01\x1Be\n\x1B>\x1Bd\x40\x01\x1Be\n"),
        []
    );
    // Bits 6 and 0 are wires 3 and 9; the second plot line is at row 7.
    assert_eq!(bench.black(), [(2, 0), (8, 5), (9, 0), (15, 3)]);
}

// When note 44 comes.

#[test]
fn condensed_characters_to_the_end() {
    let mut bench = bench();
    let job = [b"\x1B>", &[b'A'; 227][..]].concat();
    assert_eq!(bench.run(&job), [(44, 228)]);
    assert_eq!(bench.state.position, 6_780);
    assert_eq!(bench.run(b"\x1B?A"), [(44, 231)]);
    assert_eq!(bench.state.position, 6_780);
    // Elongated: 113 × 60 = 6,780.
    let job = [b"\x1B[2w", &[b'A'; 114][..]].concat();
    let mut bench = Bench::m6215(66, 6);
    assert_eq!(bench.run(&job), [(44, 117)]);
    assert_eq!(bench.state.position, 6_780);
}

#[test]
fn a_narrower_character_may_still_fit() {
    let mut bench = bench();
    assert_eq!(bench.run(&[b'A'; 135]), []);
    assert_eq!(bench.state.position, 6_750);
    // 100 and 60 are past it, 30 fits, and then neither 30 nor 50.
    let job = b"\x1B[0wA\x1B[2wA\x1B[6wAA\x1B[4wA";
    assert_eq!(bench.run(job), [(44, 139), (44, 144), (44, 150), (44, 155)]);
    assert_eq!(bench.state.position, 6_780);
}

#[test]
fn mixed_pitches_to_the_very_end() {
    let mut bench = bench();
    // 130 × 50 + 10 × 30 = 6,800.
    let job = [&[b'A'; 130][..], b"\x1B>", &[b'A'; 11]].concat();
    assert_eq!(bench.run(&job), [(44, 142)]);
    assert_eq!(bench.state.position, 6_800);
}

#[test]
fn plotted_columns_to_the_end() {
    // 1,360 × 5 = 6,800.
    let mut bench = bench();
    let job = [b"\x1Bd", &[1; 1_361][..], b"\x1B\x1B\x80"].concat();
    assert_eq!(bench.run(&job), [(44, 1_362), (44, 1_363), (46, 1_365)]);
    assert_eq!(bench.state.position, 6_800);
    // 2,266 × 3 = 6,798, and 6,801 is past the end.
    let mut bench = Bench::m6215(66, 6);
    let job = [b"\x1B>\x1Bd", &[1; 2_267][..]].concat();
    assert_eq!(bench.run(&job), [(44, 2_270)]);
    assert_eq!(bench.state.position, 6_798);
    assert_eq!(bench.lent.line[6_795..], [1, 0, 0, 0, 0]);
}

/// From positions that no job reaches: the space taken decides.
#[test]
fn the_last_positions() {
    for (position, pitch, plotting, fits) in [
        (6_750, Pitch::Normal, false, true),
        (6_751, Pitch::Normal, false, false),
        (6_770, Pitch::Compressed, false, true),
        (6_771, Pitch::Compressed, false, false),
        (6_795, Pitch::Normal, true, true),
        (6_796, Pitch::Normal, true, false),
        (6_797, Pitch::Compressed, true, true),
        (6_798, Pitch::Compressed, true, false),
        (6_800, Pitch::Compressed, true, false),
    ] {
        let mut bench = bench();
        (bench.state.fresh, bench.state.position) = (false, position);
        (bench.state.plot_line, bench.state.plotting) = (plotting, plotting);
        bench.state.pitch = pitch;
        let expected = if fits { vec![] } else { vec![(44, 0)] };
        assert_eq!(bench.run(b"A"), expected);
    }
}

// Where the pitch may change.

#[test]
fn the_pitch_changes_anywhere_outside_plot_mode() {
    let mut bench = bench();
    assert_eq!(bench.run(b"A\x1B>A\x1B?A\x1B[6wA\x1B[4wA"), []);
    // 50 + 30 + 50 + 30 + 50.
    assert_eq!(bench.state.position, 210);
    let mut bench = Bench::m6215(66, 6);
    assert_eq!(bench.run(b"\x1Bd\x01\x1Be\x1B>"), []);
    assert_eq!(bench.state.pitch, Pitch::Compressed);
    assert_eq!(bench.run(b"\x1B[0w"), []);
    assert_eq!(bench.state.pitch, Pitch::Normal);
    assert!(bench.state.plot_line && bench.state.elongated);
}

/// In plot mode 1B with another byte is note 46, and what follows is plotted.
#[test]
fn in_plot_mode_the_pitch_stays() {
    let mut bench = bench();
    assert_eq!(
        bench.run(b"\x1Bd\x1B>\x1B?\x1B[6w"),
        [(46, 2), (46, 4), (46, 6)]
    );
    assert_eq!(bench.state.pitch, Pitch::Normal);
    assert_eq!(bench.state.position, 10);
    assert_eq!((bench.lent.line[0], bench.lent.line[5]), (0x36, 0x77));
    assert_eq!(bench.close(), Closing::LineUnprinted);
}

// The print styles.

#[test]
fn styles_set_pitch_and_elongation() {
    for (job, pitch, elongated) in [
        (&b"\x1B[0w"[..], Pitch::Normal, true),
        (b"\x1B[2w", Pitch::Compressed, true),
        (b"\x1B[4w", Pitch::Normal, false),
        (b"\x1B[6w", Pitch::Compressed, false),
        (b"\x1B>\x1B[0w", Pitch::Normal, true),
        (b"\x1B[2w\x1B[4w", Pitch::Normal, false),
        (b"\x1B[0w\x1B[6w", Pitch::Compressed, false),
        // ESC > and ESC ? leave the elongation, ESC < and ESC = the pitch.
        (b"\x1B[0w\x1B>", Pitch::Compressed, true),
        (b"\x1B[2w\x1B?", Pitch::Normal, true),
        (b"\x1B[6w\x1B<", Pitch::Compressed, true),
        (b"\x1B[2w\x1B=", Pitch::Compressed, false),
    ] {
        let mut bench = bench();
        assert_eq!(bench.run(job), []);
        assert_eq!(
            (bench.state.pitch, bench.state.elongated),
            (pitch, elongated)
        );
        // No style ends freshness, or underscores.
        assert!(bench.state.fresh && !bench.state.underscore);
    }
}

// The spacings.

#[test]
fn spacings() {
    let mut bench = bench();
    assert_eq!(bench.run(b"\x1B[2z"), [(1, 3)]);
    assert_eq!(form(&bench.state), (66, 8, 1, 66));
    assert_eq!(bench.run(b"\n"), []);
    assert_eq!(bench.state.row, Row(9));
    assert_eq!(bench.run(b"\x0C\x1B[1z\n"), [(1, 5), (1, 9)]);
    assert_eq!(form(&bench.state), (66, 6, 1, 66));
    assert_eq!(bench.state.row, Row(12));
}

/// Line 4 starts at row 36 or 27.
#[test]
fn a_spacing_moves_the_start_of_the_margins() {
    let mut bench = bench_with(10, 4, 6);
    assert_eq!(bench.state.row, Row(36));
    assert_eq!(bench.run(b"\x1B[2z"), [(1, 3)]);
    assert_eq!(form(&bench.state), (10, 8, 4, 6));
    assert_eq!(bench.state.row, Row(27));
}

// Where ESC [ ends.

#[test]
fn another_last_byte_is_taken_and_not_acted_on() {
    for numbers in ["", "4", "66;1;66", ";;;", "1"] {
        for last in 0..=255_u8 {
            if last.is_ascii_digit() || b";wrz".contains(&last) {
                continue;
            }
            let mut bench = Bench::m6215(1, 8);
            assert_eq!(bench.run(b"A\x1Ba"), []);
            let job = [b"\x1B[", numbers.as_bytes(), &[last]].concat();
            assert_refused(bench, &job, 42, 3);
        }
    }
}

/// What follows stands for itself.
#[test]
fn an_escape_ends_the_bracket_and_begins_nothing() {
    let mut bench = bench();
    assert_eq!(bench.run(b"\x1B[4\x1B[4w\x1B[\x0A"), [(42, 0), (42, 7)]);
    // "[4w" are three characters.
    assert_eq!(bench.state.position, 150);
    assert_eq!(bench.state.row, Row(0));
}

#[test]
fn closing_inside_the_bracket() {
    for job in ["\x1B[", "\x1B[66", "\x1B[66;", "\x1B[;;;;9"] {
        let mut bench = bench();
        assert_eq!(bench.run(b"AB"), []);
        assert_eq!(bench.run(job.as_bytes()), []);
        assert_eq!(bench.close(), Closing::CommandUnfinished(2));
    }
}

// What a number is.

#[test]
fn numbers_are_their_true_value() {
    for digits in ["6", "06", "006", "000000000000000000000000000000000000006"] {
        let mut bench = bench();
        assert_eq!(bench.run(format!("\x1B[{digits}w").as_bytes()), []);
        assert_eq!(bench.state.pitch, Pitch::Compressed);
    }
    // 4, 1 and 66 with 2^8, 2^16, 2^32, 2^64 and more added to them.
    for digits in [
        "260",
        "65540",
        "10004",
        "4294967300",
        "18446744073709551620",
        "340282366920938463463374607431768211460",
        "100000000000000000000000000004",
        "999999999999999999999999999999",
    ] {
        let job = format!("\x1B[{digits}w");
        assert_refused(bench(), job.as_bytes(), 46, 0);
    }
    for digits in ["257", "65537", "4294967297", "18446744073709551617"] {
        assert_refused(bench(), format!("\x1B[{digits}z").as_bytes(), 46, 0);
        assert_refused(bench(), format!("\x1B[;{digits}r").as_bytes(), 43, 0);
    }
    for digits in ["322", "65602", "4294967362", "18446744073709551682"] {
        assert_refused(bench(), format!("\x1B[{digits}r").as_bytes(), 43, 0);
        assert_refused(bench(), format!("\x1B[;;{digits}r").as_bytes(), 43, 0);
    }
}

#[test]
fn a_written_nought_is_not_omitted() {
    for numbers in ["0", "0;1;66", "66;0;66", "66;1;0", ";0", ";;0", ";00;"] {
        assert_refused(bench(), format!("\x1B[{numbers}r").as_bytes(), 43, 0);
    }
    assert_refused(bench(), b"\x1B[0z", 46, 0);
    // A style of none is refused, and 0 is one.
    assert_refused(bench(), b"\x1B[w", 46, 0);
    assert_eq!(bench().run(b"\x1B[00w"), []);
}

// The order of its notes.

#[test]
fn wrong_styles() {
    for numbers in [
        "", "1", "3", "5", "7", "8", "9", "10", "44", ";", "4;", ";4", "4;4", ";;;", "0;0;0;0",
    ] {
        assert_refused(bench(), format!("\x1B[{numbers}w").as_bytes(), 46, 0);
    }
}

/// A wrong value is noted before a wrong place.
#[test]
fn wrong_spacings() {
    for numbers in ["", "0", "3", "6", "8", "12", ";", "1;", ";1", "2;2", ";;;2"] {
        let job = format!("\x1B[{numbers}z");
        assert_refused(bench(), job.as_bytes(), 46, 0);
        let mut bench = bench();
        assert_eq!(bench.run(b"A"), []);
        assert_refused(bench, job.as_bytes(), 46, 1);
    }
}

#[test]
fn wrong_forms() {
    for numbers in [
        // A third semicolon, whatever the numbers.
        ";;;",
        "5;1;5;",
        "5;1;5;5",
        ";;;;;;", // N2 past N3, N3 past L, L past 112.
        "5;4;3",
        "5;1;6",
        "5;6;6",
        "113;1;5",
        "113",
        "112;113;113",
        "112;1;113",
        "255",
        ";67;",
    ] {
        assert_refused(bench(), format!("\x1B[{numbers}r").as_bytes(), 43, 0);
        let mut bench = bench();
        assert_eq!(bench.run(b"A\n"), []);
        assert_refused(bench, format!("\x1B[{numbers}r").as_bytes(), 43, 2);
    }
}

// Omitted numbers of r.

#[test]
fn omitted_numbers_keep_their_setting() {
    for (numbers, expected) in [
        ("30;;30", (30, 6, 1, 30)),
        ("112", (112, 6, 1, 66)),
        ("066;", (66, 6, 1, 66)),
        ("67;;", (67, 6, 1, 66)),
        (";4", (66, 6, 4, 66)),
        (";66;", (66, 6, 66, 66)),
        (";;63", (66, 6, 1, 63)),
        (";;1", (66, 6, 1, 1)),
        ("112;112;112", (112, 6, 112, 112)),
        ("1;1;1", (1, 6, 1, 1)),
        ("66;4;63", (66, 6, 4, 63)),
    ] {
        let mut bench = bench();
        let job = format!("\x1B[{numbers}r");
        assert_eq!(bench.run(job.as_bytes()), [(1, job.len() as u32 - 1)]);
        assert_eq!(form(&bench.state), expected);
    }
}

/// No margin follows the length, or the other margin, by itself.
#[test]
fn the_filled_in_form_is_tested() {
    assert_refused(bench(), b"\x1B[30r", 43, 0);
    assert_refused(bench(), b"\x1B[65;r", 43, 0);
    assert_refused(bench_with(10, 4, 6), b"\x1B[;;3r", 43, 0);
    assert_refused(bench_with(10, 4, 6), b"\x1B[;7r", 43, 0);
    assert_refused(bench_with(10, 4, 6), b"\x1B[5r", 43, 0);
    let mut bench = bench_with(10, 4, 6);
    assert_eq!(bench.run(b"\x1B[6r"), [(1, 3)]);
    assert_eq!(form(&bench.state), (6, 6, 4, 6));
}

// In place.

const CHANGES: [&[u8]; 3] = [b"\x1B[5;2;4r", b"\x1B[1z", b"\x1B[2z"];

#[test]
fn forms_change_in_place() {
    for (way, forms) in [
        (&b""[..], vec![]),
        (b"\x0C", vec![(1, 0)]),
        (b"A\x0C", vec![(1, 1)]),
        (b"A\r", vec![]),
        (b"A\x1Bc\x00", vec![]),
        (b"\x1Bd\x01\x1Be\r", vec![]),
        (b"\x00\x07\x7F", vec![]),
        // Tabs and features may change before it, and the pitch.
        (b"\x1B5\x1B<\x1Ba\x1B>", vec![]),
        // Three lines within the margins, so the third 0A ends the form.
        (b"\n\n\n", vec![(1, 2)]),
        // To a tab on N2's line, there being none below.
        (b"\n\x1BF\x04\x00\x0B", vec![(1, 5)]),
    ] {
        for change in CHANGES {
            let mut bench = bench_with(10, 4, 6);
            assert_eq!(bench.run(way), forms);
            let last = (way.len() + change.len()) as u32 - 1;
            assert_eq!(bench.run(change), [(1, last)], "{way:02X?}");
        }
    }
}

#[test]
fn forms_change_nowhere_else() {
    for way in [
        &b"A"[..],
        b" ",
        b"\n",
        b"\n\r",
        b"\nA\r",
        b"\x1Bd\x1Be",
        b"\x1Bd\x01\x1Be\n",
        b"\x1BF\x05\x00\x0B",
    ] {
        for change in CHANGES {
            let mut bench = bench_with(10, 4, 6);
            assert_eq!(bench.run(way), []);
            assert_refused(bench, change, 43, way.len() as u32);
        }
    }
}

#[test]
fn a_change_that_changes_nothing_finishes_the_page() {
    for change in ["r", ";r", ";;r", "10r", "10;4;6r", "1z"] {
        let mut bench = bench_with(10, 4, 6);
        let state = bench.state.clone();
        let job = format!("\x1B[{change}").repeat(2);
        let length = job.len() as u32;
        assert_eq!(
            bench.run(job.as_bytes()),
            [(1, length / 2 - 1), (1, length - 1)]
        );
        assert_eq!(but_for_the_job(&bench.state), state);
    }
}

// What a form or spacing change leaves.

#[test]
fn what_a_form_change_leaves() {
    let mut bench = Bench::m6215(5, 6);
    let glyph = [0, 0, 1, 0, 0, 0, 0, 0, 0, 0, 0, 0, 0, 0, 0, 0];
    let download = [b"\x1BY\x00\x10\x0A\x10", &glyph[..], &[0xFF]].concat();
    assert_eq!(bench.run(&download), []);
    assert_eq!(
        bench.run(b"\x1BF\x01\x03\x04\x05\x00\x1B[2w\x1Ba\x1BN\x04\x00"),
        []
    );
    // A foreign line store and page are left, too.
    bench.lent.line.fill(0x1FF);
    bench.lent.page.fill(0x24);
    let (state, lent) = (bench.state.clone(), bench.lent.clone());
    let fed = bench.feed(b"\x1B[4;2;3rA");
    assert_eq!(
        fed,
        Fed {
            answer: Answer::FormFinished,
            taken: 8
        }
    );
    assert!(bench.lent == lent);
    let mut expected = state;
    (expected.job, expected.row) = (expected.job + 8, Row(12));
    expected.form.lines = 4;
    (expected.form.top, expected.form.bottom) = (Line(2), Line(3));
    expected.tabs.remove(&Line(5));
    assert_eq!(bench.state, expected);
    assert_eq!(bench.close(), Closing::Clean);
}

/// 5 lines of 12 rows, then 3 of 12, then 3 of 9, each row 850 bytes.
#[test]
fn a_page_of_the_new_size_is_due() {
    let mut bench = Bench::m6215(5, 6);
    for (change, due) in [(&b"\x1B[3;1;3r"[..], 30_600), (b"\x1B[2z", 22_950)] {
        assert_eq!(bench.feed(change).answer, Answer::FormFinished);
        let (state, lent) = (bench.state.clone(), bench.lent.clone());
        for piece in [&b"A"[..], b""] {
            let fed = bench.feed(piece);
            assert_eq!((fed.answer, fed.taken), (Answer::Refused(11), 0));
        }
        assert_eq!(bench.state, state);
        assert!(bench.lent == lent);
        assert_eq!(state.form.page_bytes(), due);
        bench.lent.page = vec![0; due];
        assert_eq!(bench.feed(b"").answer, Answer::UsedUp);
    }
}

// Where a form starts.

#[test]
fn forms_start_at_the_top_margin() {
    for (job, place) in [
        (&b"\x0C"[..], 0),
        (b"\n\x0C", 1),
        (b"\n\n\n", 2),
        // 36 + 4 × 7 = 64, and 64 + 9 > 72.
        (b"\x1Bd\x1Be\n\x1Bd\x1Be\n\x1Bd\x1Be\n\x1Bd\x1Be\n", 19),
    ] {
        let mut bench = bench_with(10, 4, 6);
        assert_eq!(bench.state.row, Row(36));
        assert_eq!(bench.run(job), [(1, place)]);
        assert_eq!(bench.state.row, Row(36));
    }
    // The last line is used: 0A leads to row 60, the first of line 6.
    let mut bench = bench_with(10, 4, 6);
    assert_eq!(bench.run(b"\n\n"), []);
    assert_eq!(bench.state.row, Row(60));
    // A form of one line within its margins: each 0A ends it.
    let mut bench = bench_with(10, 10, 10);
    assert_eq!(bench.run(b"\n\n"), [(1, 0), (1, 1)]);
    assert_eq!(bench.state.row, Row(108));
}

// Vertical tabs and margins.

#[test]
fn tabs_outside_the_margins_count_as_none() {
    let mut bench = bench_with(10, 3, 6);
    assert_eq!(bench.run(b"\x1BF\x01\x02\x04\x06\x08\x0A\x00\x0B"), []);
    assert_eq!(bench.state.row, Row(36));
    assert_eq!(bench.run(b"\x0B"), []);
    assert_eq!(bench.state.row, Row(60));
    // None below within the margins: to the lowest within them.
    assert_eq!(bench.run(b"\x0B"), [(1, 11)]);
    assert_eq!(bench.state.row, Row(36));
    // None within at all: as 0D.
    let mut bench = bench_with(10, 3, 6);
    assert_eq!(bench.run(b"\x1BF\x01\x02\x07\x0A\x00\n\x0B\x0B"), []);
    assert_eq!(bench.state.row, Row(36));
}

/// The margins themselves are within.
#[test]
fn tabs_on_the_margins_count() {
    let mut bench = bench_with(10, 3, 6);
    assert_eq!(bench.run(b"\x1BF\x03\x06\x00\x0B"), []);
    assert_eq!(bench.state.row, Row(60));
    assert_eq!(bench.run(b"\x0B"), [(1, 6)]);
    assert_eq!(bench.state.row, Row(24));
}

/// ESC 5 at the start of a form sets a tab at N2's line.
#[test]
fn the_current_line_counts_from_the_form_s_first() {
    let mut bench = bench_with(10, 3, 6);
    assert_eq!(bench.run(b"\x1B5\n\n\x1B5"), []);
    assert!(bench.state.tabs.iter().eq(&[Line(3), Line(5)]));
    assert_eq!(bench.run(b"\x0B"), [(1, 6)]);
    assert_eq!(bench.state.row, Row(24));
    assert_eq!(bench.run(b"\x1B6\x0B\x0B"), [(1, 10)]);
    assert_eq!(bench.state.row, Row(48));
}

/// Tabs past the new length go for good; those outside margins only count as
/// none until the margins let them.
#[test]
fn tabs_count_again_where_margins_let_them() {
    let mut bench = Bench::m6215(10, 6);
    assert_eq!(bench.run(b"\x1BF\x02\x05\x08\x00\x1B[;3;4r\x0B"), [(1, 12)]);
    assert_eq!(bench.state.row, Row(24));
    assert_eq!(bench.run(b"\x1B[7;3;7r\x0B"), [(1, 21)]);
    assert_eq!(bench.state.row, Row(48));
    assert_eq!(bench.run(b"\x0C\x1B[10;1;10r"), [(1, 23), (1, 33)]);
    assert!(bench.state.tabs.iter().eq(&[Line(2), Line(5)]));
    assert_eq!(bench.run(b"\x0B"), []);
    assert_eq!(bench.state.row, Row(12));
}

// Reset.

#[test]
fn a_reset_keeps_form_margins_and_spacing() {
    let mut bench = bench_with(10, 4, 6);
    assert_eq!(bench.run(b"\x1B[2z"), [(1, 3)]);
    let mut expected = bench.state.clone();
    assert_eq!(bench.run(b"\n\x1B5\x1B[2w\x1Ba\x1BN\x04\x00A\x1Bc\x00"), []);
    // Line 5 at 8 an inch starts at row 36.
    (expected.row, expected.job) = (Row(36), bench.state.job);
    assert_eq!(bench.state, expected);
    assert_eq!(form(&bench.state), (10, 8, 4, 6));
    assert_eq!(bench.lent.line, vec![0; 6_800]);
}

// Margins of an LP2, and soundness.

#[test]
fn an_lp2_has_no_margins_and_no_bracket() {
    let spoilers: [fn(&mut State); 4] = [
        |state| state.form.top = Line(2),
        |state| state.form.bottom = Line(4),
        |state| state.form.top = Line(0),
        |state| {
            state.job = 3;
            state.started = Some(Command {
                place: 0,
                due: Due::Bracket(Bracket::begun()),
            });
        },
    ];
    for (index, spoil) in spoilers.into_iter().enumerate() {
        // Of a 6215 the second and the fourth are sound: row 0 lies above the
        // first row of line 2.
        for (model, sound) in [(Model::Lp2, false), (Model::M6215, index % 2 == 1)] {
            let mut state = Bench::open(model, 5, 6).state;
            spoil(&mut state);
            assert_eq!(state.is_sound(), sound);
            assert_eq!(close(&state) == Closing::Unsound, !sound);
        }
    }
}

#[test]
fn sound_states_of_a_6215() {
    let state = |lines, top, bottom, row| {
        let mut state = Bench::m6215(5, 6).state;
        (state.form.lines, state.row) = (lines, Row(row));
        (state.form.top, state.form.bottom) = (Line(top), Line(bottom));
        state
    };
    for (lines, top, bottom, row) in [
        (5, 1, 5, 0),
        (5, 1, 5, 51),
        (5, 2, 4, 12),
        (5, 2, 4, 39),
        (112, 1, 112, 1_335),
        (112, 112, 112, 1_332),
    ] {
        assert!(state(lines, top, bottom, row).is_sound());
    }
    for (lines, top, bottom, row) in [
        // Rows above N2's first, and past N3's end.
        (5, 2, 4, 0),
        (5, 2, 4, 11),
        (5, 2, 4, 40),
        (5, 1, 5, 52),
        (112, 1, 112, 1_336),
        // 1 ≤ N2 ≤ N3 ≤ L ≤ 112.
        (5, 0, 5, 0),
        (5, 0, 0, 0),
        (5, 3, 2, 24),
        (5, 1, 6, 0),
        (0, 1, 0, 0),
        (113, 1, 112, 0),
        (255, 1, 255, 0),
    ] {
        assert!(!state(lines, top, bottom, row).is_sound());
    }
    // In plot mode no command is begun but a lone ESC.
    let mut plotting = state(5, 1, 5, 0);
    (plotting.fresh, plotting.plot_line, plotting.plotting) = (false, true, true);
    plotting.job = 2;
    let place = 1;
    for (due, sound) in [(Due::Letter, true), (Due::Bracket(Bracket::begun()), false)] {
        plotting.started = Some(Command { place, due });
        assert_eq!(plotting.is_sound(), sound);
    }
    // A bracket's place is below the job's length, like any command's.
    let mut begun = state(5, 1, 5, 0);
    begun.started = Some(Command {
        place: 2,
        due: Due::Bracket(Bracket::begun()),
    });
    begun.job = 2;
    assert!(!begun.is_sound());
    begun.job = 3;
    assert!(begun.is_sound());
}

// The model, and opening the 6215.

#[test]
fn models_have_numbers() {
    assert_eq!(Model::of_number(0), Some(Model::Lp2));
    assert_eq!(Model::of_number(1), Some(Model::M6215));
    assert!((2..=255).all(|number| Model::of_number(number).is_none()));
    assert_eq!(Model::BOTH.map(Model::number), [0, 1]);
}

#[test]
fn opening_the_6215() {
    for (lines, spacing, bytes) in [
        (1, 6, 10_200),
        (1, 8, 7_650),
        (66, 6, 673_200),
        (112, 6, 1_142_400),
        (112, 8, 856_800),
    ] {
        let mut lent = Lent::new(Model::M6215, bytes, vec![0; 2_048]);
        assert_eq!(lent.line.len(), 6_800);
        let (number, state) = open(Model::M6215, lines, spacing, &mut lent);
        assert_eq!(number, 0);
        assert_eq!(form(&state), (lines, spacing, 1, lines));
        assert_eq!(state.form.model, Model::M6215);
        assert_eq!((state.row, state.position), (Row(0), 0));
        assert_eq!(close(&state), Closing::Clean);
    }
}

/// What fits one model does not fit the other.
#[test]
fn each_model_has_its_sizes() {
    for (model, row_bytes, numbers, other_bytes, other_numbers) in [
        (Model::Lp2, 825, 2_200, 850, 6_800),
        (Model::M6215, 850, 6_800, 825, 2_200),
    ] {
        for (bytes, numbers, expected) in [
            (row_bytes, numbers, 0),
            (other_bytes, numbers, 11),
            (row_bytes, other_numbers, 12),
            (other_bytes, other_numbers, 11),
        ] {
            let mut lent = Lent::new(model, 12 * bytes, vec![0; 2_048]);
            lent.line = vec![0; numbers];
            let (number, state) = open(model, 1, 6, &mut lent);
            assert_eq!(number, expected);
            assert_eq!(state.is_sound(), number == 0);
        }
    }
}

/// A refused opening gives the shut state of its model, with margins 1 and 0.
#[test]
fn shut_states() {
    for (model, lines) in [(Model::Lp2, 100), (Model::M6215, 113)] {
        let mut lent = Lent::new(model, 0, vec![0; 2_048]);
        let (number, state) = open(model, lines, 6, &mut lent);
        assert_eq!(number, 18);
        assert_eq!(state.form.model, model);
        assert_eq!(form(&state), (0, 0, 1, 0));
        assert_eq!(close(&state), Closing::Unsound);
    }
}

// However a job is cut.

/// Every cutting of short jobs into pieces, inside ESC [ too.
#[test]
fn every_cutting_of_a_short_job() {
    for job in [
        b"A\x0C\x1B[2;2;2rA\x1B>A",
        b"\x1B[1zA\x1B[6wA\x1B[z!",
        b"\x1Bd!\x1B[4\x1Be\x1B[2z\nA",
        b"\n\x1B[2r\n\x1B[;2r\n\x1B[",
    ] {
        let mut whole = Bench::m6215(2, 8);
        let kept = whole.run(job);
        for cuts in 0..1_u32 << (job.len() - 1) {
            let mut bench = Bench::m6215(2, 8);
            let (mut start, mut kept_cut) = (0, Vec::new());
            for end in 1..=job.len() {
                if end == job.len() || cuts >> (end - 1) & 1 == 1 {
                    kept_cut.extend(bench.run(&job[start..end]));
                    start = end;
                }
            }
            assert_eq!(kept_cut, kept);
            assert_eq!(bench.state, whole.state);
            assert!(bench.lent == whole.lent);
        }
    }
}
