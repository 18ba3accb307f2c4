//! Document 01, "Downloads": glyphs in store and font.

/// Bytes of a glyph: eight words of two bytes, high first.
pub const GLYPH: usize = 16;

/// Columns of a glyph that are struck.
pub const COLUMNS: usize = 7;

fn word(glyph: &[u8], index: usize) -> u16 {
    u16::from_be_bytes([glyph[2 * index], glyph[2 * index + 1]])
}

/// Columns 0..6 of a code: words 1..7 of its glyph, each modulo 512.
pub fn columns(glyphs: &[u8], code: u8) -> [u16; COLUMNS] {
    let start = GLYPH * usize::from(code);
    let glyph = &glyphs[start..start + GLYPH];
    std::array::from_fn(|column| word(glyph, column + 1) % 512)
}

/// Word 0 is 0, no word exceeds 511, no two neighbouring columns share a wire.
pub fn is_well_formed(glyph: &[u8]) -> bool {
    let words: Vec<u16> = (0..8).map(|index| word(glyph, index)).collect();
    words[0] == 0
        && words.iter().all(|&word| word <= 511)
        && words[1..].windows(2).all(|pair| pair[0] & pair[1] == 0)
}
