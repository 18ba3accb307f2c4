//! Document 01, "Downloads".

use crate::commands::wait;
use crate::glyph::{is_well_formed, GLYPH};
use crate::lent::Lent;
use crate::outcome::{Fault, Outcome};
use crate::state::{Due, State};

/// The addresses that a download may fill: 2,048 up to 4,096.
const FIRST: u32 = 2_048;
const END: u32 = 4_096;

/// A download in progress.
#[derive(Clone, Copy, PartialEq, Eq, Debug)]
pub struct Download {
    /// Bytes of count and address that have come, 0 to 4.
    pub header: u8,
    pub count: u16,
    pub address: u16,
    /// Payload bytes taken.
    pub taken: u16,
    /// Their sum modulo 256.
    pub sum: u8,
}

impl Download {
    pub fn begun() -> Download {
        Download {
            header: 0,
            count: 0,
            address: 0,
            taken: 0,
            sum: 0,
        }
    }
}

/// The next byte: of count, address or payload, or the checksum.
pub fn take(
    state: &mut State,
    lent: &mut Lent,
    place: u32,
    mut download: Download,
    byte: u8,
) -> Outcome {
    match download.header {
        0 | 1 => {
            download.count = shift_in(download.count, byte);
            download.header += 1;
        }
        2 | 3 => {
            download.address = shift_in(download.address, byte);
            download.header += 1;
        }
        _ if download.taken < download.count => {
            let k = usize::from(download.taken);
            if k < lent.staging.len() {
                lent.staging[k] = byte;
            }
            download.sum = download.sum.wrapping_add(byte);
            download.taken += 1;
        }
        _ => {
            state.started = None;
            return finish(lent, place, download, byte);
        }
    }
    wait(state, place, Due::Download(download))
}

/// The high byte comes first.
fn shift_in(number: u16, byte: u8) -> u16 {
    number << 8 | u16::from(byte)
}

/// All checks come at the checksum byte, in order; on a note the store is
/// unchanged.
fn finish(lent: &mut Lent, place: u32, download: Download, checksum: u8) -> Outcome {
    if download.sum.wrapping_add(checksum) != 0 {
        return Outcome::Note(Fault::Checksum, place);
    }
    let count = u32::from(download.count);
    let address = u32::from(download.address);
    let in_range = address >= FIRST
        && address + count <= END
        && count != 0
        && count % GLYPH as u32 == 0
        && address % GLYPH as u32 == 0;
    if !in_range {
        return Outcome::Note(Fault::DownloadRange, place);
    }
    let payload = &lent.staging[..count as usize];
    if !payload.chunks(GLYPH).all(is_well_formed) {
        return Outcome::Note(Fault::IllFormedGlyph, place);
    }
    let start = (address - FIRST) as usize;
    lent.store[start..start + payload.len()].copy_from_slice(payload);
    Outcome::Quiet
}
