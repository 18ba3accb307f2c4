//! Reads scripts one after the other and prints what each one gives.

use crate::adler::adler32;
use crate::calls::{close, feed, open, Answer, Closing};
use crate::lent::{Lent, FONT};
use crate::model::Model;
use crate::sheet::{Form, Pitch};
use crate::state::State;
use std::io::{self, Read, Write};

/// Model, L and spacing, a byte each.
pub const HEADER: usize = 3;

/// Header and font; a script has no less.
pub const SHORTEST: u64 = (HEADER + FONT) as u64;

/// A script has no more.
pub const LONGEST: u64 = 262_144;

/// Prints every script's lines, up to the input's end, an input that ends
/// inside a script, or a script that is too long.
pub fn replay(mut input: impl Read, output: &mut impl Write) -> io::Result<()> {
    let mut k = 0_u64;
    while let Some(length) = read_bytes(&mut input, 4)? {
        let length = u64::from(u32::from_be_bytes([
            length[0], length[1], length[2], length[3],
        ]));
        k += 1;
        writeln!(output, "SCRIPT {k}")?;
        if !(SHORTEST..=LONGEST).contains(&length) {
            writeln!(output, "REFUSED SCRIPT")?;
        }
        if length > LONGEST {
            break;
        }
        let Some(script) = read_bytes(&mut input, length)? else {
            break;
        };
        if length >= SHORTEST {
            play(&script, output)?;
        }
    }
    Ok(())
}

/// Exactly so many bytes, or none if the input ends before.
fn read_bytes(input: &mut impl Read, count: u64) -> io::Result<Option<Vec<u8>>> {
    let mut bytes = Vec::new();
    input.by_ref().take(count).read_to_end(&mut bytes)?;
    Ok(Some(bytes).filter(|bytes| bytes.len() as u64 == count))
}

/// One script of an allowed length: OPEN and all that follows, unless its first
/// byte is no model's.
fn play(script: &[u8], output: &mut impl Write) -> io::Result<()> {
    let (header, rest) = script.split_at(HEADER);
    let Some(model) = Model::of_number(header[0]) else {
        return writeln!(output, "REFUSED SCRIPT");
    };
    let form = Form::opened(model, header[1], header[2]);
    let (font, rest) = rest.split_at(FONT);
    let page_bytes = if form.is_allowed() {
        form.page_bytes()
    } else {
        0
    };
    let mut lent = Lent::new(model, page_bytes, font.to_vec());
    let (number, mut state) = open(model, form.lines, form.spacing, &mut lent);
    writeln!(output, "OPEN {number}")?;
    if number != 0 {
        return Ok(());
    }
    feed_all(&pieces(rest), &mut state, &mut lent, output)?;
    match close(&state) {
        Closing::Clean => writeln!(output, "CLOSE CLEAN")?,
        Closing::LineUnprinted => writeln!(output, "CLOSE LINE")?,
        Closing::CommandUnfinished(place) => writeln!(output, "CLOSE OPEN {place}")?,
        Closing::Unsound => writeln!(output, "CLOSE 10")?,
    }
    print_rest(&state, &lent, output)
}

/// The pieces: two bytes of length, high first, and that many bytes, or what
/// is there of them. A single byte at the end is no length.
pub fn pieces(mut rest: &[u8]) -> Vec<&[u8]> {
    let mut pieces = Vec::new();
    while rest.len() >= 2 {
        let length = usize::from(u16::from_be_bytes([rest[0], rest[1]]));
        let (piece, after) = rest[2..].split_at(length.min(rest.len() - 2));
        pieces.push(piece);
        rest = after;
    }
    pieces
}

/// Offers each piece, and its rest again until it is empty.
fn feed_all(
    pieces: &[&[u8]],
    state: &mut State,
    lent: &mut Lent,
    output: &mut impl Write,
) -> io::Result<()> {
    let mut forms = 0_u64;
    for piece in pieces {
        let mut rest = *piece;
        loop {
            let fed = feed(state, lent, rest);
            let number = fed.answer.number();
            match fed.answer {
                Answer::Note(fault, place) => writeln!(
                    output,
                    "FED {number} {} {} {place}",
                    fed.taken,
                    fault.number()
                )?,
                _ => writeln!(output, "FED {number} {}", fed.taken)?,
            }
            if fed.answer == Answer::FormFinished {
                forms += 1;
                writeln!(output, "FORM {forms} {:08x}", adler32(&lent.page))?;
                lent.lend_page(state.form);
            }
            if number > 2 {
                return Ok(());
            }
            rest = &rest[fed.taken..];
            if rest.is_empty() {
                break;
            }
        }
    }
    Ok(())
}

/// What is left in memory and state when the job is closed.
fn print_rest(state: &State, lent: &Lent, output: &mut impl Write) -> io::Result<()> {
    let line: Vec<u8> = lent
        .line
        .iter()
        .flat_map(|number| number.to_be_bytes())
        .collect();
    writeln!(output, "PAGE {:08x}", adler32(&lent.page))?;
    writeln!(output, "LINE {:08x}", adler32(&line))?;
    writeln!(output, "STAGING {:08x}", adler32(&lent.staging))?;
    writeln!(output, "STORE {:08x}", adler32(&lent.store))?;
    write!(output, "HEAD {} {}", state.row.0, state.position)?;
    let flags = [
        state.pitch == Pitch::Compressed,
        state.elongated,
        state.underscore,
        state.downloaded,
        state.fresh,
        state.plot_line,
        state.plotting,
    ];
    for flag in flags {
        write!(output, " {}", u8::from(flag))?;
    }
    writeln!(output)?;
    if state.form.model == Model::M6215 {
        let form = state.form;
        writeln!(
            output,
            "MARGINS {} {} {} {}",
            form.lines, form.spacing, form.top.0, form.bottom.0
        )?;
    }
    writeln!(output, "JOB {}", state.job)?;
    write!(output, "TABS")?;
    for line in &state.tabs {
        write!(output, " {}", line.0)?;
    }
    writeln!(output)
}
