//! Bytes of a block, read eight or more at a time.

use std::arch::x86_64::{__m128i, _mm_cmpeq_epi8, _mm_loadu_si128, _mm_movemask_epi8, _mm_set1_epi8};

/// The bytes from one place of a block on.  Up to the end of its line, and `PADDING` bytes more, they may be loaded:
/// whoever goes on by `after` has seen that no line feed stands in between.
#[derive(Clone, Copy)]
pub struct Bytes(pub *const u8);

const ONES: u64 = 0x0101_0101_0101_0101;
const HIGHS: u64 = 0x8080_8080_8080_8080;

pub const fn all(byte: u8) -> u64 {
    ONES * byte as u64
}

/// The lowest bytes of eight; their number is 1 to 8.
#[inline(always)]
pub fn lowest(count: usize) -> u64 {
    u64::MAX >> (64 - 8 * count)
}

/// Which byte the lowest bit stands in, 8 where there is none.
#[inline(always)]
pub fn first(bits: u64) -> usize {
    bits.trailing_zeros() as usize / 8
}

/// The high bits of the bytes that are the one looked for: exact up to the lowest of them.
#[inline(always)]
pub fn places_of(eight: u64, byte: u8) -> u64 {
    let apart = eight ^ all(byte);
    apart.wrapping_sub(ONES) & !apart & HIGHS
}

/// All bits up to the lowest one that is set.
#[inline(always)]
pub fn up_to_lowest(bits: u64) -> u64 {
    bits ^ bits.wrapping_sub(1)
}

/// The high bits of the bytes that are no digits.
#[inline(always)]
pub fn no_digits(eight: u64) -> u64 {
    let apart = eight ^ all(b'0');
    (((apart & !HIGHS) + all(0x80 - 10)) | apart) & HIGHS
}

/// How many digits stand lowest.
#[inline(always)]
pub fn digits_of(eight: u64) -> usize {
    first((eight.wrapping_add(all(0x80 - b'9' - 1)) | eight.wrapping_sub(all(b'0'))) & HIGHS)
}

/// The value of eight digits, of which the lowest byte is the highest; a byte of 0 is a leading zero too.
#[inline(always)]
pub fn value_of_eight(digits: u64) -> u64 {
    let ones = digits & all(0x0F);
    let tens = (ones.wrapping_mul(1 + (10 << 8)) >> 8) & 0x00FF_00FF_00FF_00FF;
    let thousands = (tens.wrapping_mul(1 + (100 << 16)) >> 16) & 0x0000_FFFF_0000_FFFF;
    thousands.wrapping_mul(1 + (10_000 << 32)) >> 32
}

impl Bytes {
    #[inline(always)]
    pub fn after(self, count: usize) -> Bytes {
        // SAFETY: by the invariant of the type.
        Bytes(unsafe { self.0.add(count) })
    }

    #[inline(always)]
    pub fn byte(self) -> u8 {
        // SAFETY: by the invariant of the type, here and below.
        unsafe { *self.0 }
    }

    #[inline(always)]
    fn four(self) -> u32 {
        unsafe { self.0.cast::<u32>().read_unaligned() }
    }

    #[inline(always)]
    pub fn eight(self) -> u64 {
        unsafe { self.0.cast::<u64>().read_unaligned() }
    }

    #[inline(always)]
    fn sixteen(self) -> __m128i {
        unsafe { _mm_loadu_si128(self.0.cast()) }
    }

    /// A bit for each of the sixteen bytes that is the one looked for.
    #[inline(always)]
    pub fn sixteen_that_are(self, byte: u8) -> u32 {
        unsafe { _mm_movemask_epi8(_mm_cmpeq_epi8(self.sixteen(), _mm_set1_epi8(byte as i8))) as u32 }
    }

    #[inline(always)]
    pub fn says<const LENGTH: usize>(self, text: &[u8; LENGTH]) -> bool {
        unsafe { *self.0.cast::<[u8; LENGTH]>() == *text }
    }

    /// How many bytes stand before the next line feed.
    #[inline(always)]
    pub fn line_length(self) -> usize {
        let mut length = 0;
        loop {
            let ends = self.after(length).sixteen_that_are(b'\n');
            if ends != 0 {
                return length + ends.trailing_zeros() as usize;
            }
            length += 16;
        }
    }

    /// A number of one to seven digits, and how many they are.
    #[inline(always)]
    pub fn short_number(self) -> Option<(u32, usize)> {
        let eight = self.eight();
        let count = digits_of(eight);
        if count == 0 || count == 8 {
            return None;
        }
        Some((value_of_eight(eight << (64 - 8 * count)) as u32, count))
    }

    /// A number of one to sixteen digits, and how many they are.
    #[inline(always)]
    pub fn number(self) -> Option<(u64, usize)> {
        let eight = self.eight();
        let count = digits_of(eight);
        if count == 0 {
            return None;
        }
        if count < 8 {
            return Some((value_of_eight(eight << (64 - 8 * count)), count));
        }
        let above = value_of_eight(eight);
        let eight = self.after(8).eight();
        let count = digits_of(eight);
        if count == 0 {
            return Some((above, 8));
        }
        let below = value_of_eight(eight << (64 - 8 * count));
        Some((above * TENS[count] + below, 8 + count))
    }

    /// A prio of three digits, 0 where these three bytes are none.
    #[inline(always)]
    pub fn prio(self) -> u32 {
        let three = self.four() & 0x00FF_FFFF;
        if three == u32::from_le_bytes(*b"120\0") {
            return 120;
        }
        let (hundreds, tens, ones) = (three & 0xFF, three >> 8 & 0xFF, three >> 16);
        if hundreds != b'1' as u32 || tens.wrapping_sub(48) > 9 || ones.wrapping_sub(48) > 9 {
            return 0;
        }
        100 + 10 * (tens - 48) + ones - 48
    }

    /// How long a name of up to fifteen bytes is, up to its key.
    #[inline(always)]
    pub fn name_before<const LENGTH: usize>(self, key: &[u8; LENGTH]) -> Option<usize> {
        let ends = self.sixteen_that_are(b'\n');
        let mut spaces = self.sixteen_that_are(b' ') & (ends.wrapping_sub(1) & !ends);
        while spaces != 0 {
            let length = spaces.trailing_zeros() as usize;
            if self.after(length).says(key) {
                return Some(length);
            }
            spaces &= spaces - 1;
        }
        None
    }
}

const TENS: [u64; 9] = [1, 10, 100, 1_000, 10_000, 100_000, 1_000_000, 10_000_000, 100_000_000];
