//! The witness: an independent reading of documents 01 and 02.
//!
//! `reference replay` reads scripts from standard input and prints what each
//! one gives. `reference generate SEED N [MODEL]` writes N scripts to standard
//! output, of both models or of the model 0 (LP2) or 1 (6215).

// The rules, one module a part.
mod bracket;
mod calls;
mod commands;
mod download;
mod glyph;
mod lent;
mod model;
mod outcome;
mod plot;
mod sheet;
mod state;
mod terminators;
mod text;

// The replay of scripts.
mod adler;
mod replay;

// The generator of scripts.
mod bracket_maker;
mod download_maker;
mod fragments;
mod generate;
mod glyph_maker;
mod job_maker;
mod random;

#[cfg(test)]
mod bench;
#[cfg(test)]
mod black_dots_tests;
#[cfg(test)]
mod decisions_tests;
#[cfg(test)]
mod edition_tests;
#[cfg(test)]
mod form_end_tests;
#[cfg(test)]
mod generator_tests;
#[cfg(test)]
mod striking_tests;
#[cfg(test)]
mod table_tests;

use model::Model;
use std::io::{self, BufReader, BufWriter, Write};
use std::process::ExitCode;

const USAGE: &str = "usage: reference replay | reference generate SEED N [MODEL]";

fn main() -> ExitCode {
    let arguments: Vec<String> = std::env::args().skip(1).collect();
    let words: Vec<&str> = arguments.iter().map(String::as_str).collect();
    let mut output = BufWriter::new(io::stdout().lock());
    let done = match words[..] {
        ["replay"] => replay::replay(BufReader::new(io::stdin().lock()), &mut output),
        ["generate", seed, count, ref model @ ..] if model.len() <= 1 => {
            let (Ok(seed), Ok(count)) = (seed.parse(), count.parse()) else {
                return fail("SEED and N are whole numbers");
            };
            let models = match model {
                [] => &Model::BOTH[..],
                ["0"] => &[Model::Lp2],
                ["1"] => &[Model::M6215],
                _ => return fail("MODEL is 0 or 1"),
            };
            generate::generate(seed, count, models, &mut output)
        }
        _ => return fail(USAGE),
    };
    match done.and_then(|()| output.flush()) {
        Ok(()) => ExitCode::SUCCESS,
        Err(error) => fail(&error.to_string()),
    }
}

fn fail(why: &str) -> ExitCode {
    // Standard error may be closed too; there is nobody left to tell then.
    let _ = writeln!(io::stderr(), "reference: {why}");
    ExitCode::FAILURE
}
