//! Glyphs and fonts for scripts, well-formed or not.

use crate::glyph::GLYPH;
use crate::lent::FONT;
use crate::random::Random;

/// Word 0 is 0, no word exceeds 511, no column shares a wire with the last.
pub fn well_formed(random: &mut Random) -> [u8; GLYPH] {
    let mut words = [0_u16; 8];
    for index in 1..8 {
        let last = if index == 1 { 0 } else { words[index - 1] };
        words[index] = random.below(512) as u16 & !last;
    }
    as_bytes(words)
}

/// A well-formed glyph, spoilt in one of four ways.
pub fn ill_formed(random: &mut Random) -> [u8; GLYPH] {
    let mut words = as_words(well_formed(random));
    match random.below(4) {
        0 => words[0] = random.pick(&[1, 0x0100, 0x01FF, 0x8000]),
        1 => words[random.number(1..=7)] |= 1 << random.number(9..=15),
        2 => words[random.number(1..=7)] = 512,
        _ => {
            let left = random.number(1..=6);
            let wire = 1 << random.number(0..=8);
            words[left] |= wire;
            words[left + 1] |= wire;
        }
    }
    as_bytes(words)
}

/// A font: zeros, well-formed glyphs, or noise.
pub fn font(random: &mut Random) -> Vec<u8> {
    match random.weighted(&[15, 60, 25]) {
        0 => vec![0; FONT],
        1 => (0..FONT / GLYPH)
            .flat_map(|_| well_formed(random))
            .collect(),
        _ => (0..FONT).map(|_| random.byte(0..=255)).collect(),
    }
}

fn as_bytes(words: [u16; 8]) -> [u8; GLYPH] {
    std::array::from_fn(|k| words[k / 2].to_be_bytes()[k % 2])
}

fn as_words(bytes: [u8; GLYPH]) -> [u16; 8] {
    std::array::from_fn(|k| u16::from_be_bytes([bytes[2 * k], bytes[2 * k + 1]]))
}

#[cfg(test)]
mod tests {
    use super::*;
    use crate::glyph::is_well_formed;

    #[test]
    fn glyphs_are_as_named() {
        let mut random = Random::new(7);
        for _ in 0..1_000 {
            assert!(is_well_formed(&well_formed(&mut random)));
            assert!(!is_well_formed(&ill_formed(&mut random)));
        }
    }
}
