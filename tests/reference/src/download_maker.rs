//! Downloads for jobs, right and wrong.

use crate::glyph::GLYPH;
use crate::glyph_maker::{ill_formed, well_formed};
use crate::random::Random;

/// A whole download, from ESC to checksum, and the codes that it is meant for.
pub struct Made {
    pub bytes: Vec<u8>,
    pub codes: Vec<u8>,
}

/// What a download says of itself, before any fault is put in.
struct Draft {
    address: usize,
    payload: Vec<u8>,
    checksum_off: u8,
}

impl Draft {
    /// Well-formed glyphs for some codes in a row, mostly printing ones.
    fn right(random: &mut Random) -> Draft {
        let glyphs = match random.weighted(&[70, 25, 5]) {
            0 => random.number(1..=3),
            1 => random.number(4..=12),
            _ => random.pick(&[64, 96, 127, 128]),
        };
        let last_start = 128 - glyphs;
        let start = match random.chance(85) && last_start >= 0x20 {
            true => random.number(0x20..=last_start.min(0x7E)),
            false => random.number(0..=last_start),
        };
        Draft {
            address: 2_048 + GLYPH * start,
            payload: (0..glyphs).flat_map(|_| well_formed(random)).collect(),
            checksum_off: 0,
        }
    }

    fn spoil_checksum(&mut self, random: &mut Random) {
        self.checksum_off = random.pick(&[1, 2, 16, 128, 255]);
    }

    fn spoil_glyph(&mut self, random: &mut Random) {
        let glyphs = self.payload.len() / GLYPH;
        if glyphs > 0 {
            let start = GLYPH * random.below(glyphs);
            self.payload[start..start + GLYPH].copy_from_slice(&ill_formed(random));
        }
    }

    /// Below 2,048, past 4,096 at its end, or round the end of 16 bits.
    fn spoil_address(&mut self, random: &mut Random) {
        let count = self.payload.len();
        self.address = match random.below(4) {
            0 => random.pick(&[0, 16, 1_040, 2_032]),
            1 => (4_096 - count + GLYPH * random.number(1..=2)).min(65_520),
            2 => random.pick(&[4_096, 4_112, 8_192, 32_768]),
            _ => random.pick(&[65_520, 65_536 - count]),
        };
    }

    /// Count or address not a multiple of 16, within range else.
    fn spoil_multiple(&mut self, random: &mut Random) {
        let short = random.number(1..=15);
        if random.chance(50) {
            self.payload.truncate(self.payload.len() - short);
        } else {
            self.address = (self.address + short)
                .min(4_096 - self.payload.len() - 1)
                .max(2_049);
        }
    }

    /// More bytes than the store has.
    fn spoil_count(&mut self, random: &mut Random) {
        let count = random.pick(&[2_049, 2_064, 2_080, 2_304]);
        while self.payload.len() < count {
            self.payload.extend(well_formed(random));
        }
        self.payload.truncate(count);
        self.address = random.pick(&[self.address, 2_048]);
    }

    /// ESC Y, count, address, payload, checksum.
    fn bytes(&self) -> Vec<u8> {
        let sum = self
            .payload
            .iter()
            .fold(0_u8, |sum, &byte| sum.wrapping_add(byte));
        let mut bytes = vec![0x1B, b'Y'];
        bytes.extend((self.payload.len() as u16).to_be_bytes());
        bytes.extend((self.address as u16).to_be_bytes());
        bytes.extend(&self.payload);
        bytes.push(sum.wrapping_neg().wrapping_add(self.checksum_off));
        bytes
    }
}

pub fn download(random: &mut Random) -> Made {
    let mut draft = Draft::right(random);
    let first = (draft.address - 2_048) / GLYPH;
    let codes = (first..first + draft.payload.len() / GLYPH)
        .map(|code| code as u8)
        .collect();
    match random.weighted(&[46, 9, 14, 10, 7, 4, 4, 6]) {
        0 => {}
        1 => draft.spoil_checksum(random),
        2 => draft.spoil_glyph(random),
        3 => draft.spoil_address(random),
        4 => draft.spoil_multiple(random),
        5 => draft.payload.clear(),
        6 => draft.spoil_count(random),
        // Several faults at once: the order of the checks decides.
        _ => {
            draft.spoil_glyph(random);
            match random.below(3) {
                0 => draft.spoil_address(random),
                1 => draft.spoil_multiple(random),
                _ => draft.payload.clear(),
            }
            if random.chance(50) {
                draft.spoil_checksum(random);
            }
        }
    }
    if draft.payload.is_empty() && random.chance(30) {
        draft.spoil_checksum(random);
    }
    Made {
        bytes: draft.bytes(),
        codes,
    }
}

/// A download that breaks off before its checksum.
pub fn half_download(random: &mut Random) -> Vec<u8> {
    let mut bytes = download(random).bytes;
    let kept = match random.chance(50) {
        true => random.number(2..=6),
        false => random.number(6..=bytes.len() - 1),
    };
    bytes.truncate(kept);
    bytes
}
