//! Scripts: a model, a form, a font, and a job cut into pieces.

use crate::glyph_maker;
use crate::job_maker::{job, lines};
use crate::lent::FONT;
use crate::model::Model;
use crate::random::Random;
use crate::replay::HEADER;
use crate::sheet::Form;
use std::io::{self, Write};

/// Writes N scripts of these models, each preceded by its length in four bytes,
/// high first.
pub fn generate(
    seed: u64,
    count: u64,
    models: &[Model],
    output: &mut impl Write,
) -> io::Result<()> {
    let mut random = Random::new(seed);
    for _ in 0..count {
        let script = script(&mut random, models);
        output.write_all(&(script.len() as u32).to_be_bytes())?;
        output.write_all(&script)?;
    }
    Ok(())
}

fn script(random: &mut Random, models: &[Model]) -> Vec<u8> {
    let model = random.pick(models);
    let form = Form::opened(model, lines(random, model), random.pick(&[6, 8]));
    let mut job = job(random, form);
    let mut header = [model.number(), form.lines, form.spacing];
    let past = model.most_lines() + 1;
    // Now and then what an opening refuses, or no script at all.
    let refused = random.weighted(&[965, 10, 10, 5, 5, 5]);
    match refused {
        0 => {}
        1 => header[1] = random.pick(&[0, past, past, 128, 255]),
        2 => header[2] = random.pick(&[0, 5, 7, 9, 12]),
        3 => (header[1], header[2]) = (random.pick(&[0, past]), 7),
        4 => header[0] = random.pick(&[2, 3, 6, 127, 128, 255]),
        _ => {
            let length = random.pick(&[0, 1, 2, 3, 300, HEADER - 1 + FONT]);
            return vec![random.pick(&[0, 1, 6]); length];
        }
    }
    if refused != 0 {
        job.truncate(40);
    }
    let mut script = header.to_vec();
    script.extend(glyph_maker::font(random));
    put_pieces(random, &job, &mut script);
    script
}

/// How a job is cut.
enum Cut {
    Whole,
    Bytes,
    UpTo(usize),
}

fn put_pieces(random: &mut Random, job: &[u8], script: &mut Vec<u8>) {
    let cut = match random.weighted(&[30, 10, 25, 20, 15]) {
        0 => Cut::Whole,
        1 if job.len() <= 400 => Cut::Bytes,
        2 => Cut::UpTo(1 + job.len() / 2),
        3 => Cut::UpTo(400),
        _ => Cut::UpTo(40),
    };
    let mut rest = job;
    while !rest.is_empty() {
        if random.chance(6) {
            put_piece(&[], script);
        }
        let length = match cut {
            Cut::Whole => rest.len(),
            Cut::Bytes => 1,
            Cut::UpTo(most) => random.number(1..=most),
        };
        let (piece, after) = rest.split_at(length.min(rest.len()).min(65_535));
        if after.is_empty() && random.chance(6) {
            // The last length reaches past the script's end.
            let more = random.number(1..=500).min(65_535 - piece.len());
            script.extend(((piece.len() + more) as u16).to_be_bytes());
            script.extend(piece);
            return;
        }
        put_piece(piece, script);
        rest = after;
    }
    match random.below(20) {
        0 => put_piece(&[], script),
        // A length with nothing behind it.
        1 => script.extend([0x00, 0x05]),
        // A byte where a length is due.
        2 => script.push(0x00),
        _ => {}
    }
}

fn put_piece(piece: &[u8], script: &mut Vec<u8>) {
    script.extend((piece.len() as u16).to_be_bytes());
    script.extend(piece);
}
