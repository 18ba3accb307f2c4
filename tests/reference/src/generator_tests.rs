//! What generated scripts reach, and that they agree however they are cut.

use crate::bench::Bench;
use crate::calls::{Answer, Closing};
use crate::generate::generate;
use crate::glyph_maker;
use crate::job_maker::{job, lines};
use crate::model::Model;
use crate::outcome::Fault;
use crate::random::Random;
use crate::replay::replay;
use crate::sheet::Form;
use std::collections::{BTreeMap, BTreeSet};

fn scripts(seed: u64, count: u64, models: &[Model]) -> Vec<u8> {
    let mut bytes = Vec::new();
    generate(seed, count, models, &mut bytes).unwrap();
    bytes
}

fn replayed(input: &[u8]) -> String {
    let mut output = Vec::new();
    replay(input, &mut output).unwrap();
    String::from_utf8(output).unwrap()
}

fn lines_of(output: &str, word: &str) -> usize {
    output.lines().filter(|line| line.starts_with(word)).count()
}

#[test]
fn the_same_seed_gives_the_same_scripts() {
    for models in [&Model::BOTH[..], &[Model::Lp2], &[Model::M6215]] {
        let made = scripts(3, 20, models);
        assert_eq!(scripts(3, 20, models), made);
        assert!(made.starts_with(&scripts(3, 10, models)));
        assert_ne!(scripts(4, 20, models), made);
    }
}

#[test]
fn generated_scripts_replay_to_their_end() {
    for models in [&Model::BOTH[..], &[Model::Lp2], &[Model::M6215]] {
        let output = replayed(&scripts(11, 200, models));
        assert_eq!(lines_of(&output, "SCRIPT "), 200);
        for never in ["FED 3 ", "FED 10 ", "FED 11 ", "CLOSE 10"] {
            assert_eq!(lines_of(&output, never), 0, "{never}");
        }
    }
}

/// Both models about equally often, or one alone; and now and then a script of
/// no model, too short, or with a form that is refused.
#[test]
fn generated_scripts_are_of_the_models_asked_for() {
    for (models, fewest, most) in [
        (&[Model::Lp2][..], 0, 0),
        (&[Model::M6215], 100, 100),
        (&Model::BOTH, 45, 55),
    ] {
        let bytes = scripts(21, 2_000, models);
        let (mut rest, mut counts) = (&bytes[..], [0; 2]);
        let (mut short, mut of_no_model, mut refused) = (0, 0, 0);
        while let Some((length, after)) = rest.split_first_chunk() {
            let (script, after) = after.split_at(u32::from_be_bytes(*length) as usize);
            rest = after;
            if script.len() < 2_051 {
                short += 1;
            } else if let Some(model) = Model::of_number(script[0]) {
                counts[usize::from(script[0])] += 1;
                refused += u32::from(!Form::opened(model, script[1], script[2]).is_allowed());
            } else {
                of_no_model += 1;
            }
        }
        let all = counts[0] + counts[1];
        assert!((fewest * all..=most * all).contains(&(100 * counts[1])));
        assert!(short >= 2 && of_no_model >= 2 && refused >= 20);
        assert_eq!(all + short + of_no_model, 2_000);
    }
}

/// What the jobs of many generated forms come to.
#[derive(Default)]
struct Reached {
    faults: BTreeMap<Fault, u32>,
    /// Forms finished by 0A, 0B or 0C, by r, and by z.
    forms: u32,
    form_changes: u32,
    spacing_changes: u32,
    /// Forms of a 6215: L, N2 and N3.
    settings: BTreeSet<(u8, u8, u8)>,
    /// Lines that end exactly at W.
    full_lines: u32,
    unfinished: u32,
    unprinted: u32,
    clean: u32,
}

impl Reached {
    fn play(&mut self, bench: &mut Bench, job: &[u8]) {
        let mut rest = job;
        while !rest.is_empty() {
            let fed = bench.feed(rest);
            let last = rest[..fed.taken].last().copied();
            rest = &rest[fed.taken..];
            assert!(bench.state.is_sound());
            match fed.answer {
                Answer::Note(fault, _) => *self.faults.entry(fault).or_default() += 1,
                Answer::FormFinished => {
                    match last {
                        Some(b'r') => self.form_changes += 1,
                        Some(b'z') => self.spacing_changes += 1,
                        _ => self.forms += 1,
                    }
                    bench.lent.lend_page(bench.state.form);
                }
                Answer::UsedUp => {}
                other => panic!("{other:?}"),
            }
            let form = bench.state.form;
            self.settings
                .insert((form.lines, form.top.0, form.bottom.0));
            self.full_lines += u32::from(bench.state.position == bench.state.width());
        }
        match bench.close() {
            Closing::CommandUnfinished(_) => self.unfinished += 1,
            Closing::LineUnprinted => self.unprinted += 1,
            Closing::Clean => self.clean += 1,
            Closing::Unsound => panic!("unsound"),
        }
    }
}

fn reached(model: Model, jobs: u32) -> Reached {
    let mut random = Random::new(5);
    let mut reached = Reached::default();
    for _ in 0..jobs {
        let (lines, spacing) = (random.byte(1..=6), random.pick(&[6, 8]));
        let font = glyph_maker::font(&mut random);
        let job = job(&mut random, Form::opened(model, lines, spacing));
        reached.play(&mut Bench::with_font(model, lines, spacing, font), &job);
    }
    println!("{model:?} {:?}", reached.faults);
    reached
}

/// The faults that a model has none of.
fn foreign(model: Model) -> Vec<Fault> {
    match model {
        Model::Lp2 => vec![
            Fault::UnknownBracket,
            Fault::StyleValue,
            Fault::SpacingValue,
            Fault::FormSetting,
            Fault::FormOutOfPlace,
            Fault::SpacingOutOfPlace,
        ],
        Model::M6215 => vec![Fault::PitchInLine],
    }
}

/// Every fault and every closing comes up, and often enough to count: fifteen
/// of the LP2, of the 6215 six more and one less.
#[test]
fn generated_jobs_reach_every_fault() {
    for (model, faults) in [(Model::Lp2, 15), (Model::M6215, 20)] {
        let reached = reached(model, 1_000);
        assert_eq!(reached.faults.len(), faults);
        assert!(reached.faults.values().all(|&count| count >= 50));
        for fault in foreign(model) {
            assert!(!reached.faults.contains_key(&fault));
        }
        let Reached {
            forms,
            unfinished,
            unprinted,
            clean,
            full_lines,
            ..
        } = reached;
        for count in [forms, unfinished, unprinted, clean, full_lines] {
            assert!(count >= 100);
        }
    }
}

/// Forms change in every way on a 6215, and never on an LP2.
#[test]
fn generated_jobs_change_forms() {
    let lp2 = reached(Model::Lp2, 100);
    assert_eq!((lp2.form_changes, lp2.spacing_changes), (0, 0));
    let m6215 = reached(Model::M6215, 500);
    assert!(m6215.form_changes >= 300 && m6215.spacing_changes >= 100);
    let reaches = |is: fn((u8, u8, u8)) -> bool| m6215.settings.iter().any(|&form| is(form));
    assert!(reaches(|(lines, top, bottom)| 1 < top
        && top < bottom
        && bottom < lines));
    assert!(reaches(|(lines, top, bottom)| 1 < top
        && top == bottom
        && bottom < lines));
    assert!(reaches(|(lines, top, _)| 1 < top && top == lines));
    assert!(reaches(|(lines, top, bottom)| top == 1 && bottom < lines));
    assert!(reaches(|(lines, _, _)| lines > 99));
}

/// Forms of every size up to the model's largest come up, small ones mostly.
#[test]
fn generated_forms_are_of_every_size() {
    for (model, most) in [(Model::Lp2, 99), (Model::M6215, 112)] {
        let mut random = Random::new(6);
        let drawn: Vec<u8> = (0..20_000).map(|_| lines(&mut random, model)).collect();
        let sizes: BTreeSet<u8> = drawn.iter().copied().collect();
        assert_eq!(sizes, (1..=most).collect());
        assert!(drawn.iter().filter(|&&lines| lines <= 12).count() > 14_000);
    }
}

/// A job cut into single bytes gives what the whole job gives.
#[test]
fn cuts_change_nothing() {
    for model in Model::BOTH {
        let mut random = Random::new(9);
        for _ in 0..100 {
            let lines = random.byte(1..=6);
            let font = glyph_maker::font(&mut random);
            let job = job(&mut random, Form::opened(model, lines, 6));
            let mut whole = Bench::with_font(model, lines, 6, font.clone());
            let mut bytes = Bench::with_font(model, lines, 6, font);
            let kept: Vec<_> = job.iter().flat_map(|&byte| bytes.run(&[byte])).collect();
            assert_eq!(whole.run(&job), kept);
            assert_eq!(whole.state, bytes.state);
            assert!(whole.lent == bytes.lent);
        }
    }
}
