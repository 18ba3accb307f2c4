//! Adler-32 (RFC 1950).

const MODULUS: u32 = 65_521;

pub fn adler32(bytes: &[u8]) -> u32 {
    let (mut a, mut b) = (1_u32, 0_u32);
    // 5,552 bytes are the most that cannot overflow before the reduction.
    for chunk in bytes.chunks(5_552) {
        for &byte in chunk {
            a += u32::from(byte);
            b += a;
        }
        a %= MODULUS;
        b %= MODULUS;
    }
    b << 16 | a
}

#[cfg(test)]
mod tests {
    use super::adler32;

    #[test]
    fn known_sums() {
        assert_eq!(adler32(b""), 1);
        assert_eq!(adler32(b"Wikipedia"), 0x11e6_0398);
        // All ones, long enough for several reductions: a and b by arithmetic.
        let n = 100_000_u64;
        let a = (1 + 255 * n) % 65_521;
        let b = (n + 255 * n * (n + 1) / 2) % 65_521;
        assert_eq!(u64::from(adler32(&vec![255; 100_000])), b << 16 | a);
    }
}
