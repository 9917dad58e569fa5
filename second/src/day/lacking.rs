//! Days of chips that lack a channel at some counts and have it at others.

use super::cases::{chip, day, spell, Place, AIR};
use super::FLAT;
use crate::calibration::{Words, BLOCK_ONE, BLOCK_TWO};
use crate::data;
use crate::sheet::{k5_words, zero_divisor_words};

/// A chip, the counts at which it lacks a channel, and two at which it doesn't.
pub struct Lacking {
    pub words: Words,
    pub without: [u64; 3],
    pub with: [[u64; 3]; 2],
}

/// Lists chips that lack temperature and so all by 12 and 11, and pressure by 12, 13, 14 below and 14 above.
/// Humidity's 12 comes last. The other readings have every channel.
pub fn chips() -> [Lacking; 6] {
    let changed = |place: usize, word: i64| {
        let mut words = chip();
        words.p[place] = word;
        words
    };
    let rooms = [AIR[1], AIR[2]];
    let hot = Words {
        t: [0, 1, 0],
        ..chip()
    };
    let flat = Words {
        h: chip().h,
        ..zero_divisor_words()
    };
    let mut above = changed(0, 200);
    above.p[8] = 0;
    let mut damp = k5_words();
    (damp.p, damp.h[1]) = (chip().p, 1_000);
    let lacking = |words, without, with| Lacking {
        words,
        without,
        with,
    };
    [
        lacking(
            hot,
            [741_456, 415_148, 28_160],
            [[741_455, 415_148, 28_160], [741_440, 400_000, 30_000]],
        ),
        lacking(changed(5, 32_767), [0, 415_148, 28_160], rooms),
        lacking(flat, [0, 415_148, 28_160], rooms),
        lacking(changed(6, -32_768), [519_888, 1_048_575, 28_160], rooms),
        lacking(
            above,
            AIR[0],
            [[519_888, 700_000, 28_160], [519_888, 720_000, 30_000]],
        ),
        lacking(
            damp,
            [614_400, 415_148, 40_000],
            [[614_400, 415_148, 1_000], [614_400, 400_000, 2_000]],
        ),
    ]
}

/// Lists the days of one chip: the reading that lacks a channel at each place of three, with its codes in five ways, and everywhere.
/// A channel that is skipped lacks for that reason first.
fn of(chip: &Lacking) -> Vec<String> {
    let mut lines = Vec::new();
    for codes in [[1, 1, 1], [0, 1, 1], [1, 0, 1], [1, 1, 0], [1, 1, 8]] {
        let without: Place = (chip.without, codes);
        let [one, other] = chip.with.map(|counts| (counts, [7, 2, 5]));
        let days = [
            [without, one, other],
            [one, without, other],
            [one, other, without],
        ];
        lines.extend(days.map(|places| day(&chip.words, &places)));
    }
    lines.push(day(&chip.words, &[(chip.without, [1, 1, 1]); 3]));
    lines
}

/// Lists days of blocks that are one byte throughout, with data that are rooms, or one byte throughout.
/// All channels are enabled.
fn throughout() -> Vec<String> {
    let mut data: Vec<_> = AIR.map(data::bytes).to_vec();
    data.extend([[0x00; 8], [0xFF; 8], [0x7F; 8], [0x80; 8]]);
    let readings: Vec<u8> = data
        .iter()
        .flat_map(|data| [&data[..], &[1, 1, 1]].concat())
        .collect();
    let mut lines = Vec::new();
    for one in [0x00, 0x01, 0x7F, 0x80, 0xFF] {
        for two in [0x00, 0x01, 0x7F, 0x80, 0xFF] {
            lines.push(spell(
                &[one; BLOCK_ONE],
                &[two; BLOCK_TWO],
                &readings,
                readings.len() / FLAT,
            ));
        }
    }
    lines
}

/// Lists all of these as lines, in a fixed order.
/// Every number from 10 to 14 comes, and 7.
pub fn lines() -> Vec<String> {
    let mut lines: Vec<String> = chips().iter().flat_map(of).collect();
    lines.extend(throughout());
    lines
}
