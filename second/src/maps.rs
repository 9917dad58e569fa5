//! Points, cells and rooms as fixed lines: the sheet's readings, exact edges and every kind of missing.

use crate::calibration::Words;
use crate::compensation::Input;
use crate::edges::{self, damped, pressed, warmed, Edge};
use crate::sheet::{k2_words, k5_words, zero_divisor_words, K2_COUNTS};
use crate::spelling::{asked, input, rooms};

const HIGHEST_TOLERANCE: u64 = 4_294_967_295;

/// Two rooms, and by how much their channels differ.
/// A channel that one of them lacks has 0 there.
pub type Pair = (Input, Input, [u64; 3]);

/// Lists the lowest temperature that can be reached, then -1, 0 from a fine temperature below 0, 0, 1, and the highest.
/// The fine temperatures of the first and the last are -1179648 and 1179646, and no reading goes beyond them.
pub fn temperatures() -> [Edge; 6] {
    [
        warmed([0, -32_768, -8_192], 524_288),
        warmed([13, 2048, 0], 0),
        warmed([13, 2048, 0], 8),
        warmed([0, 2048, 0], 0),
        warmed([0, 2048, 0], 45 << 3),
        warmed([0, 32_766, 8_191], 524_320),
    ]
}

/// Lists pressures of 1, 255, 256, 257, and around 2^24, 2^31 and 2^32.
/// They are where the double's exponent moves, and where a signed word of 32 bits would end.
pub fn pressures() -> [Edge; 9] {
    [
        pressed(36_477, -7_193, -14_600, 6_000, 1_000_194),
        pressed(36_477, -7_617, -14_600, 6_000, 1_000_029),
        pressed(36_477, -7_393, -14_600, 6_000, 1_000_113),
        pressed(36_477, -7_177, -14_600, 6_000, 1_000_194),
        pressed(36_477, -8_170, -14_600, 6_000, 611_157),
        pressed(36_477, -8_129, -14_600, 6_000, 611_172),
        pressed(100, -19_282, 0, 0, 868_673),
        pressed(100, -27_283, 0, 0, 868_665),
        pressed(100, -28_168, 0, 0, 734_464),
    ]
}

/// Lists humidities of 1, 1023, 1024 and 1025, 102399, and 102400 by the clamp.
/// At this fine temperature and with H1 0 humidity is half the count, times H2 by 32.
pub fn humidities() -> [Edge; 6] {
    let half = |h2, half: u64| damped(2048, 76_800, [0, h2, 0, 0, 0, 0], 2 * half);
    [
        half(32, 1),
        half(32, 1_023),
        half(32, 1_024),
        half(32, 1_025),
        half(352, 9_309),
        half(352, 9_310),
    ]
}

/// Lists the readings that stand on an edge of their own: temperatures, pressures, humidities.
/// Every channel is enabled.
pub fn edges() -> Vec<Input> {
    let edges = temperatures()
        .into_iter()
        .chain(pressures())
        .chain(humidities());
    edges.map(|edge| edge.input()).collect()
}

/// Gives K2's reading with the given codes.
/// Temperature is 2508 and pressure 25767233.
fn k2(codes: [u64; 3]) -> Input {
    input(&k2_words(), K2_COUNTS, codes)
}

/// Gives K5's reading with another H4 and count, and code 0 for pressure.
/// Temperature is 1500.
fn k5(h4: i64, count: u64, code: u64) -> Input {
    let mut words = k5_words();
    words.h[3] = h4;
    input(&words, [614_400, 0, count], [1, 0, code])
}

/// Lists readings with a channel missing: 10 everywhere, 10 and 11, 12 and 11, 12, 13 twice, 14 below and above.
/// Humidity's 12 comes last.
pub fn missing() -> [Input; 9] {
    let with = |place: usize, word: i64| {
        let mut words = k2_words();
        words.p[place] = word;
        words
    };
    let hot = Words {
        t: [0, 1, 0],
        ..Words::default()
    };
    let mut above = with(0, 200);
    above.p[8] = 0;
    let mut damp = k5_words();
    damp.h[1] = 1024;
    let all = [1, 1, 1];
    [
        k2([0, 0, 0]),
        k2([0, 1, 1]),
        input(&hot, [741_456, 0, 0], all),
        input(&with(5, 32_767), [0, 415_148, 0], all),
        input(&with(0, 0), K2_COUNTS, all),
        input(&zero_divisor_words(), [0, 415_148, 0], all),
        input(&with(6, -32_768), [519_888, 1_048_575, 0], all),
        input(&above, K2_COUNTS, all),
        input(&damp, [614_400, 0, 8_192], [1, 0, 1]),
    ]
}

/// Lists readings refused whole: four with 2, then two with 7.
/// The last of those with 2 has a wrong code as well.
pub fn refused() -> [Input; 6] {
    let short = |one: usize, two: usize, data: usize, codes| {
        let mut input = k2(codes);
        input.one.resize(one, 0);
        input.two.resize(two, 0);
        input.data.resize(data, 0);
        input
    };
    [
        short(25, 7, 8, [1, 1, 1]),
        short(26, 8, 8, [1, 1, 1]),
        short(26, 7, 0, [0, 0, 0]),
        short(26, 7, 7, [8, 1, 1]),
        k2([8, 1, 1]),
        k2([0, 0, HIGHEST_TOLERANCE]),
    ]
}

/// Lists every reading whose point and cells are asked for.
/// K1's and K2's come first.
pub fn inputs() -> Vec<Input> {
    let mut inputs = vec![k2([1, 0, 0]), k2([1, 1, 0]), k2([1, 1, 1])];
    inputs.extend([k5(0, 8_192, 1), k5(0, 32_768, 1), k5(1, 0, 1), k5(1, 0, 0)]);
    inputs.extend(edges::readings().iter().map(Edge::input));
    inputs.extend(edges());
    inputs.extend(missing());
    inputs.extend(refused());
    inputs
}

/// Lists pairs of rooms that both have at least one value.
/// Their differences run from none to the widest of each channel.
pub fn differing() -> Vec<Pair> {
    let [coldest, below, _, zero, one, hottest] = temperatures().map(|edge| edge.input());
    let [_, empty, full, _] = edges::pressures().map(|edge| edge.input());
    let [p1, p255, .., p_half, p_sign, p_last] = pressures().map(|edge| edge.input());
    let [h1, h1023, .., h_last, h_full] = humidities().map(|edge| edge.input());
    let other = input(&k2_words(), [0x80000, 0x80000, 0], [1, 1, 0]);
    vec![
        (k2([1, 1, 1]), k2([1, 1, 1]), [0, 0, 0]),
        (k2([1, 1, 0]), k2([7, 7, 0]), [0, 0, 0]),
        (k2([1, 1, 0]), other, [138, 4_763_835, 0]),
        (k2([1, 1, 1]), k5(0, 8_192, 1), [1_008, 0, 46_036]),
        (coldest, hottest, [46_080, 0, 0]),
        (below.clone(), zero, [1, 0, 0]),
        (below, one, [2, 0, 0]),
        (empty.clone(), full.clone(), [0, 4_294_967_295, 0]),
        (empty, p1.clone(), [0, 1, 0]),
        (p1, p255, [0, 254, 0]),
        (p_half, p_sign.clone(), [0, 1, 0]),
        (p_sign, full.clone(), [0, 2_147_483_647, 0]),
        (p_last, full, [0, 1, 0]),
        (k5(1, 0, 1), k5(0, 32_768, 1), [0, 0, 102_400]),
        (h1, h1023, [0, 0, 1_022]),
        (h_last, h_full, [0, 0, 1]),
    ]
}

/// Lists pairs of rooms of which at least one lacks a channel or all.
/// A true value 0 stands against a missing one too, and a missing one against its like.
pub fn lacking() -> Vec<Pair> {
    let zero = temperatures()[3].input();
    let mut cold = zero.clone();
    cold.codes = [0, 1, 1];
    let [_, empty, ..] = edges::pressures().map(|edge| edge.input());
    let mut unpressed = empty.clone();
    unpressed.codes = [1, 0, 1];
    let mut pairs = vec![
        (zero, cold, [0, 0, 0]),
        (empty, unpressed, [0, 0, 0]),
        (k5(1, 0, 1), k5(1, 0, 0), [0, 0, 0]),
        (k5(1, 0, 0), k5(1, 0, 0), [0, 0, 0]),
    ];
    for input in missing().into_iter().chain(refused()) {
        pairs.push((input.clone(), k2([1, 1, 1]), [0, 0, 0]));
        pairs.push((input.clone(), input, [0, 0, 0]));
    }
    let [short, .., beyond] = refused();
    pairs.push((short, beyond, [0, 0, 0]));
    pairs
}

/// Spells a pair of rooms four times: with its differences as the tolerances, one less, one more, and turned round.
/// The tolerances stay within 0 and 4,294,967,295.
fn around((one, other, exact): Pair) -> [String; 4] {
    let less = exact.map(|tolerance| tolerance.saturating_sub(1));
    let more = exact.map(|tolerance| HIGHEST_TOLERANCE.min(tolerance + 1));
    [
        rooms(&one, &other, exact),
        rooms(&one, &other, less),
        rooms(&one, &other, more),
        rooms(&other, &one, exact),
    ]
}

/// Spells a pair of rooms with no tolerance and with the highest, both ways round.
/// What is missing stays unknown by any tolerance.
fn by_any((one, other, _): Pair) -> [String; 4] {
    let highest = [HIGHEST_TOLERANCE; 3];
    [
        rooms(&one, &other, [0; 3]),
        rooms(&one, &other, highest),
        rooms(&other, &one, [0; 3]),
        rooms(&other, &one, highest),
    ]
}

/// Lists a burst of eight bytes with one of these lines between the bytes, its close and the ledger.
/// The burst stays whole, since none of them touches the machine.
fn during_a_burst() -> Vec<String> {
    let lines = |text: &str| -> Vec<String> { text.split(';').map(String::from).collect() };
    let mut walk = lines("fresh;copied;write F4 27;copied;finish 519888 415148 0");
    walk.extend(lines("open F7;byte;byte"));
    walk.push(asked("point", &k2([1, 1, 0])));
    walk.extend(lines("byte;byte;byte"));
    walk.push(asked("cells", &k2([8, 1, 0])));
    walk.extend(lines("byte;byte"));
    walk.push(rooms(&k2([1, 1, 0]), &k2([0, 1, 0]), [0; 3]));
    walk.extend(lines("byte;close 8;ledger;fresh"));
    walk
}

/// Lists all of these as lines, in a fixed order.
/// They end in the fresh state.
pub fn lines() -> Vec<String> {
    let mut lines: Vec<String> = edges().iter().map(|edge| asked("comp", edge)).collect();
    for input in inputs() {
        lines.extend(["point", "cells"].map(|name| asked(name, &input)));
    }
    lines.extend(differing().into_iter().flat_map(around));
    lines.extend(lacking().into_iter().flat_map(by_any));
    lines.extend(during_a_burst());
    lines
}
