//! Document 02, #111: no feeding turns a black dot white.

use crate::bench::{dotted_page, Bench};
use crate::calls::Answer;
use crate::generate::generate;
use crate::lent::FONT;
use crate::model::Model;
use crate::random::Random;
use crate::replay::{pieces, HEADER};
use crate::sheet::Form;

/// The page of one form.
struct Watched {
    /// As lent, then as the last feeding left it.
    last: Vec<u8>,
    /// Every dot that was ever black.
    black: Vec<u8>,
}

impl Watched {
    fn new(page: &[u8]) -> Watched {
        Watched {
            last: page.to_vec(),
            black: page.to_vec(),
        }
    }

    /// The page after a feeding. Did it add dots to others?
    fn fed(&mut self, page: &[u8]) -> bool {
        assert!(has_all(page, &self.last));
        let added = self.last != page && self.last.iter().any(|&byte| byte != 0);
        self.last.copy_from_slice(page);
        for (black, &byte) in self.black.iter_mut().zip(page) {
            *black |= byte;
        }
        added
    }
}

/// Has a page every black dot of another?
fn has_all(page: &[u8], other: &[u8]) -> bool {
    assert_eq!(page.len(), other.len());
    // A loop that cannot end early takes many bytes at a time.
    let pairs = page.iter().zip(other);
    pairs.fold(0, |lost, (byte, other)| lost | other & !byte) == 0
}

/// The bench for a script, unless the script or its opening is refused.
fn bench(script: &[u8]) -> Option<Bench> {
    let (&[model, lines, spacing], rest) = script.split_first_chunk()?;
    let (model, font) = (Model::of_number(model)?, rest.get(..FONT)?.to_vec());
    let opens = Form::opened(model, lines, spacing).is_allowed();
    opens.then(|| Bench::with_font(model, lines, spacing, font))
}

/// Feeds so many generated scripts, and lends each form a page of its own.
/// Gives the forms finished, and the feedings that added dots to others.
fn feed_watched(model: Model, seeds: u64, mut lend: impl FnMut(usize) -> Vec<u8>) -> (u32, u32) {
    let (mut forms, mut additions) = (0, 0);
    for seed in 0..seeds {
        let mut script = Vec::new();
        generate(seed, 1, &[model], &mut script).unwrap();
        // Four bytes of length come first.
        let script = &script[4..];
        let Some(mut bench) = bench(script) else {
            continue;
        };
        bench.lent.page = lend(bench.state.form.page_bytes());
        let mut watched = Watched::new(&bench.lent.page);
        for mut rest in pieces(&script[HEADER + FONT..]) {
            loop {
                let fed = bench.feed(rest);
                rest = &rest[fed.taken..];
                additions += u32::from(watched.fed(&bench.lent.page));
                match fed.answer {
                    Answer::UsedUp => break,
                    Answer::Note(..) => {}
                    Answer::FormFinished => {
                        assert!(has_all(&bench.lent.page, &watched.black));
                        bench.lent.page = lend(bench.state.form.page_bytes());
                        watched = Watched::new(&bench.lent.page);
                        forms += 1;
                    }
                    other => panic!("{other:?}"),
                }
            }
        }
        assert!(has_all(&bench.lent.page, &watched.black));
    }
    (forms, additions)
}

#[test]
fn no_feeding_turns_a_black_dot_white() {
    for model in Model::BOTH {
        let (forms, additions) = feed_watched(model, 400, |bytes| vec![0; bytes]);
        assert!(forms >= 1_000 && additions >= 1_000);
    }
}

#[test]
fn no_feeding_turns_a_dot_white_that_was_black_when_lent() {
    let mut random = Random::new(114);
    for model in Model::BOTH {
        let (forms, additions) = feed_watched(model, 200, |bytes| dotted_page(&mut random, bytes));
        assert!(forms >= 1_000 && additions >= 1_000);
    }
}
