//! Calibration words of made-up chips: real-looking ones, and ones at the limits.

use crate::calibration::Words;
use crate::random::Random;
use crate::sheet::{k2_words, k5_words, zero_divisor_words};

const SIGNED_EDGES: [i64; 10] = [-32768, -32767, -256, -1, 0, 1, 255, 256, 32766, 32767];
const UNSIGNED_EDGES: [i64; 8] = [0, 1, 2, 255, 32767, 32768, 65534, 65535];
const NIBBLE_EDGES: [i64; 9] = [-2048, -2047, -16, -1, 0, 1, 15, 2046, 2047];
const BYTE_EDGES: [i64; 6] = [0, 1, 127, 128, 254, 255];
const SIGNED_BYTE_EDGES: [i64; 6] = [-128, -127, -1, 0, 1, 127];

/// Moves a word by at most a part of its size, and a little more.
/// The word stays within its type, since real words lie far from the limits.
fn near(random: &mut Random, word: i64, part: i64) -> i64 {
    let reach = word.abs() / part + 2;
    (word + random.between(-reach, reach)).clamp(-32768, 65535)
}

/// Makes words like those of real chips: K1's, K2's and K5's with noise.
/// Humidity's other words are as chips commonly have them.
pub fn real(random: &mut Random) -> Words {
    let mut words = k2_words();
    for word in words.t.iter_mut().chain(words.p.iter_mut()) {
        *word = near(random, *word, 12);
    }
    words.h = [
        near(random, k5_words().h[0], 12),
        near(random, k5_words().h[1], 12),
        random.between(0, 3),
        random.between(260, 360),
        random.between(-20, 80),
        random.between(25, 35),
    ];
    words
}

/// Picks a word at an edge of its type, by its place among T, P and H.
/// Each kind of word has its own edges.
fn edge(random: &mut Random, place: usize) -> i64 {
    match place {
        0 | 3 => random.pick(&UNSIGNED_EDGES),
        12 | 14 => random.pick(&BYTE_EDGES),
        15 | 16 => random.pick(&NIBBLE_EDGES),
        17 => random.pick(&SIGNED_BYTE_EDGES),
        _ => random.pick(&SIGNED_EDGES),
    }
}

/// Puts words at edges in so many places of all eighteen.
/// A place may be met twice.
pub fn with_edges(random: &mut Random, words: Words, places: i64) -> Words {
    let mut words = words;
    for _ in 0..places {
        let place = random.below(18) as usize;
        let word = edge(random, place);
        match place {
            0..=2 => words.t[place] = word,
            3..=11 => words.p[place - 3] = word,
            _ => words.h[place - 12] = word,
        }
    }
    words
}

/// Makes words at edges everywhere.
/// Most of them overflow somewhere.
pub fn extreme(random: &mut Random) -> Words {
    with_edges(random, Words::default(), 60)
}

/// Gives the square root of a number below 2^62, rounded down.
/// It is found bit by bit, from the highest.
fn square_root(number: i64) -> i64 {
    (0..31).rev().fold(0, |root, bit| {
        let higher = root + (1 << bit);
        if higher * higher <= number {
            higher
        } else {
            root
        }
    })
}

/// Makes words whose temperature comes close to leaving its type at the given count.
/// Either the first product, the square or the second product is at its limit.
pub fn hot(random: &mut Random, count: i64) -> Words {
    let mut words = real(random);
    let little = random.between(-2, 2);
    match random.below(3) {
        0 => {
            let size = random.between(16_400, 32_767);
            let sign = random.pick(&[-1, 1]);
            words.t[1] = size * sign;
            let difference = (1_i64 << 31) / size * random.pick(&[-1, 1]) + little;
            words.t[0] = ((count >> 3) - difference) / 2;
        }
        1 => words.t[0] = (count >> 4) + 46_340 * random.pick(&[-1, 1]) + little,
        _ => {
            let size = random.between(8_000, 32_767);
            words.t[2] = size * random.pick(&[-1, 1]);
            let root = square_root((1_i64 << 43) / size);
            words.t[0] = (count >> 4) + root * random.pick(&[-1, 1]) + little;
            words.t[1] = random.between(-2_000, 2_000);
        }
    }
    words.t[0] = words.t[0].clamp(0, 65_535);
    words
}

/// Makes words whose pressure comes close to a limit.
/// A small P1 makes it large, a low P7 negative, and P3 brings the divisor near zero.
pub fn pressed(random: &mut Random) -> Words {
    let mut words = real(random);
    match random.below(4) {
        0 => {
            words.p[0] = random.between(1, 500);
            words.p[8] = random.pick(&[0, 1, -1, words.p[8]]);
        }
        1 => words.p[6] = random.between(-32_768, 0),
        2 => {
            words.t = [31_744 + random.between(-1, 1), 29_696, 0];
            words.p[1] = random.between(-2, 2);
            words.p[2] = random.between(-32_768, -32_700);
        }
        _ => words.p[5] = random.between(-32_768, 32_767),
    }
    words
}

/// Makes chips that each lack a channel, with the counts that show it.
/// They come as 12 in temperature, 12, 13 twice and 14 twice in pressure, and 12 in humidity.
pub fn broken(random: &mut Random) -> [(Words, [u64; 3]); 7] {
    let counts = [519_888, 415_148, random.below(1 << 16)];
    let with = |place: usize, word: i64| {
        let mut words = k2_words();
        words.p[place] = word;
        words
    };
    let mut hot = k5_words();
    hot.t = [0, 1, random.between(-5, 5)];
    let mut above = with(0, random.between(50, 200));
    above.p[8] = 0;
    let low = with(6, random.between(-32_768, -32_000));
    let mut humid = k5_words();
    humid.h[1] = random.between(1_024, 2_000);
    [
        (hot, [741_456, 0, 0]),
        (with(5, 32_767), [0, 415_148, 0]),
        (with(0, 0), counts),
        (zero_divisor_words(), [0, 415_148, 0]),
        (low, [519_888, 1_048_575, 0]),
        (above, counts),
        (humid, [614_400, 0, 8_192]),
    ]
}

/// Makes words at K5's fine temperature whose humidity comes close to a limit.
/// H2 of 1024 is the first to leave the type there.
pub fn damp(random: &mut Random) -> Words {
    let mut words = k5_words();
    words.p = real(random).p;
    words.h = [
        random.between(0, 255),
        random.pick(&[-1025, -1024, 362, 700, 1023, 1024]) + random.between(-1, 1),
        random.between(0, 255),
        random.between(-2048, 2047),
        random.between(-2048, 2047),
        random.between(-128, 127),
    ];
    words
}
