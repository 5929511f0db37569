//! Arithmetic modulo p = 65537 on four words at once, with SSE2. A word here is any signed number of 32 bits that stands for its class modulo p; only `settle`
//! gives the one from 0 to 65536.
//!
//! A factor is a pair of 16-bit numbers, g and -g. With 65536 = -1, a word of low half l (signed) and high half h is l - h, so that one `pmaddwd` makes
//! g * l + (-g) * h, its product with g. That needs g from -32767 to 32767: the two classes 32768 and -32768 have no factor, and users of a table that has them
//! take half of the number and double the product. No product leaves 32 bits: 32767 * (32768 + 32768) is 2^31 - 65536.
//!
//! Products are folded, to -32767 .. 98303, and no words but these, those of buffers and sums of few of them go into a transform: its words stay below 2^29
//! (passes.rs says how).
use core::arch::x86_64::*;

pub const P: i32 = 65537;
pub const HALF: i32 = 32768;

pub type Lanes = __m128i;

/// An expression of SSE2's instructions on registers.
macro_rules! sse2 {
    ($e:expr) => {
        // SAFETY: every x86-64 has SSE2, and nothing else is asked.
        unsafe { $e }
    };
}

#[inline(always)]
pub fn splat(x: i32) -> Lanes {
    sse2!(_mm_set1_epi32(x))
}

#[inline(always)]
pub fn zero() -> Lanes {
    sse2!(_mm_setzero_si128())
}

#[inline(always)]
pub fn add(x: Lanes, y: Lanes) -> Lanes {
    sse2!(_mm_add_epi32(x, y))
}

#[inline(always)]
pub fn sub(x: Lanes, y: Lanes) -> Lanes {
    sse2!(_mm_sub_epi32(x, y))
}

#[inline(always)]
pub fn and(x: Lanes, y: Lanes) -> Lanes {
    sse2!(_mm_and_si128(x, y))
}

#[inline(always)]
pub fn or(x: Lanes, y: Lanes) -> Lanes {
    sse2!(_mm_or_si128(x, y))
}

/// x where the mask is set, y elsewhere.
#[inline(always)]
pub fn choose(mask: Lanes, x: Lanes, y: Lanes) -> Lanes {
    or(and(mask, x), and_not(mask, y))
}

#[inline(always)]
pub fn shift<const BITS: i32>(x: Lanes) -> Lanes {
    sse2!(_mm_slli_epi32::<BITS>(x))
}

/// 32768 in each lane, what `times` asks to be in a word.
#[inline(always)]
pub fn half() -> Lanes {
    splat(HALF)
}

/// The product with a factor, not reduced, of a word that has `half` added to it: then the low half, its top bit turned, is signed, and the high half has what
/// that borrows. The word with it is below 2^31.
#[inline(always)]
pub fn times(x: Lanes, factor: Lanes) -> Lanes {
    sse2!(_mm_madd_epi16(_mm_xor_si128(x, half()), factor))
}

/// The low half less the high half: from -32767 to 98303.
#[inline(always)]
pub fn fold(x: Lanes) -> Lanes {
    sub(and(x, splat(0xffff)), sse2!(_mm_srai_epi32::<16>(x)))
}

/// The same for words that are unsigned numbers of 32 bits: from -65535 to 65535.
#[inline(always)]
pub fn fold_unsigned(x: Lanes) -> Lanes {
    sub(and(x, splat(0xffff)), sse2!(_mm_srli_epi32::<16>(x)))
}

/// The product of a word without `half`.
#[inline(always)]
pub fn product(x: Lanes, factor: Lanes) -> Lanes {
    fold(times(add(x, half()), factor))
}

/// A multiple of p above every word that is settled: those are below 2^29.
pub const BIAS: i32 = 8193 * P;

/// The word's class from 0 to 65536. The word has the bias in it already, and is from 0 to 2^30 + 2^14.
#[inline(always)]
pub fn settle_biased(x: Lanes) -> Lanes {
    let x = fold_unsigned(x);
    add(x, and(sse2!(_mm_srai_epi32::<31>(x)), splat(P)))
}

#[inline(always)]
pub fn settle(x: Lanes) -> Lanes {
    settle_biased(add(x, splat(BIAS)))
}

/// Sets the top bit of each lane whose word, unsigned, is above `most`.
#[inline(always)]
pub fn above(x: Lanes, most: i32) -> Lanes {
    or(x, add(x, splat(i32::MAX - most)))
}

/// What `x` has where the mask is not set, and zeros.
#[inline(always)]
pub fn and_not(mask: Lanes, x: Lanes) -> Lanes {
    sse2!(_mm_andnot_si128(mask, x))
}

/// The words times 2^bits.
#[inline(always)]
pub fn shift_by(x: Lanes, bits: u32) -> Lanes {
    sse2!(_mm_sll_epi32(x, _mm_cvtsi32_si128(bits as i32)))
}

/// Whether a lane has its top bit set.
#[inline(always)]
pub fn any_top(x: Lanes) -> bool {
    sse2!(_mm_movemask_ps(_mm_castsi128_ps(x)) != 0)
}

/// All bits set where x is greater.
#[inline(always)]
pub fn greater(x: Lanes, y: Lanes) -> Lanes {
    sse2!(_mm_cmpgt_epi32(x, y))
}

#[inline(always)]
pub fn equal(x: Lanes, y: Lanes) -> Lanes {
    sse2!(_mm_cmpeq_epi32(x, y))
}

#[inline(always)]
pub fn lanes_of(words: [i32; 4]) -> Lanes {
    sse2!(_mm_set_epi32(words[3], words[2], words[1], words[0]))
}

#[inline(always)]
pub fn words_of(x: Lanes) -> [u32; 4] {
    // SAFETY: both are 128 bits, of which any are four numbers.
    unsafe { std::mem::transmute(x) }
}

/// The words at even places of two vectors, and those at odd ones.
#[inline(always)]
pub fn unzip(x: Lanes, y: Lanes) -> [Lanes; 2] {
    sse2!({
        let (x, y) = (_mm_castsi128_ps(x), _mm_castsi128_ps(y));
        let (even, odd) = (_mm_shuffle_ps::<0x88>(x, y), _mm_shuffle_ps::<0xdd>(x, y));
        [_mm_castps_si128(even), _mm_castps_si128(odd)]
    })
}

/// # Safety
/// Four words can be read from `at`.
#[inline(always)]
pub unsafe fn load(at: *const i32) -> Lanes {
    _mm_loadu_si128(at.cast())
}

/// # Safety
/// Four words can be written from `at` on.
#[inline(always)]
pub unsafe fn store(at: *mut i32, x: Lanes) {
    _mm_storeu_si128(at.cast(), x);
}

/// The first one, two or three words, and zeros. As in `load`, they need not be aligned.
///
/// # Safety
/// `count` words can be read from `at`.
#[inline(always)]
pub unsafe fn load_some(at: *const i32, count: usize) -> Lanes {
    match count {
        1 => _mm_cvtsi32_si128(at.read_unaligned()),
        2 => _mm_loadl_epi64(at.cast()),
        _ => {
            let third = _mm_cvtsi32_si128(at.add(2).read_unaligned());
            _mm_unpacklo_epi64(_mm_loadl_epi64(at.cast()), third)
        }
    }
}

/// # Safety
/// `count` words, one to three, can be written from `at` on.
#[inline(always)]
pub unsafe fn store_some(at: *mut i32, x: Lanes, count: usize) {
    if count == 1 {
        *at = _mm_cvtsi128_si32(x);
        return;
    }
    _mm_storel_epi64(at.cast(), x);
    if count == 3 {
        *at.add(2) = _mm_cvtsi128_si32(_mm_unpackhi_epi64(x, x));
    }
}

/// Two words, each twice.
///
/// # Safety
/// Two words can be read from `at`.
#[inline(always)]
pub unsafe fn load_twice(at: *const i32) -> Lanes {
    let pair = _mm_loadl_epi64(at.cast());
    _mm_unpacklo_epi32(pair, pair)
}

/// Word j of vector i becomes word i of vector j.
#[inline(always)]
pub fn transpose(v: [Lanes; 4]) -> [Lanes; 4] {
    sse2!({
        let (a, b) = (
            _mm_unpacklo_epi32(v[0], v[1]),
            _mm_unpackhi_epi32(v[0], v[1]),
        );
        let (c, d) = (
            _mm_unpacklo_epi32(v[2], v[3]),
            _mm_unpackhi_epi32(v[2], v[3]),
        );
        [
            _mm_unpacklo_epi64(a, c),
            _mm_unpackhi_epi64(a, c),
            _mm_unpacklo_epi64(b, d),
            _mm_unpackhi_epi64(b, d),
        ]
    })
}

/// The rows of two blocks of four rows of two words: each row of the result is that of the first block and that of the second.
#[inline(always)]
pub fn pair_rows(v: [Lanes; 4]) -> [Lanes; 4] {
    sse2!({
        [
            _mm_unpacklo_epi64(v[0], v[2]),
            _mm_unpackhi_epi64(v[0], v[2]),
            _mm_unpacklo_epi64(v[1], v[3]),
            _mm_unpackhi_epi64(v[1], v[3]),
        ]
    })
}

/// What `pair_rows` undoes.
#[inline(always)]
pub fn unpair_rows(v: [Lanes; 4]) -> [Lanes; 4] {
    sse2!({
        [
            _mm_unpacklo_epi64(v[0], v[1]),
            _mm_unpacklo_epi64(v[2], v[3]),
            _mm_unpackhi_epi64(v[0], v[1]),
            _mm_unpackhi_epi64(v[2], v[3]),
        ]
    })
}
