//! Points, cells and rooms: the bits of the doubles, and what is said of each kind of channel.

mod common;

use common::check;
use second::random::Random;
use second::rooms::double;

const ONE: &str = "706B436718FC7D8E43D6D00B270B8C00F9FF8C3CF8C67017004B";
const TWO: &str = "6A0100142F031E";
const DATA: &str = "655AC07EED006E00";

/// Lists whole numbers at edges: around each power of two up to 2^53, of both signs.
/// 0 is among them.
fn edges() -> Vec<i64> {
    let near = |bit: u32| [(1 << bit) - 1, 1 << bit, (1_i64 << bit) + 1];
    let positive: Vec<i64> = (0..53).flat_map(near).collect();
    let negative = positive.iter().map(|whole| -whole);
    negative.chain(positive.iter().copied()).collect()
}

/// Lists many whole numbers of every size up to 32 bits and more, of both signs.
/// They are seeded.
fn many() -> Vec<i64> {
    let mut random = Random::new(31);
    let mut numbers: Vec<i64> = (-30_000..200_000).collect();
    for _ in 0..300_000 {
        let size = random.bits() >> (11 + random.below(53));
        let sign = random.pick(&[-1, 1]);
        numbers.push(size as i64 * sign);
    }
    numbers
}

/// The bits are those of the processor's own division, which is exact here.
/// Negative zero never comes.
#[test]
fn bits_are_those_of_the_division() {
    for whole in edges().into_iter().chain(many()) {
        let quotients = [whole as f64, whole as f64 / 256.0, whole as f64 / 1024.0];
        let bits = [0, 8, 10].map(|power| double(whole, power).0);
        assert_eq!(bits, quotients.map(f64::to_bits), "{whole}");
        assert_ne!(bits[0], 1 << 63);
    }
}

/// Read over whole numbers, the bits are the number divided by the power: nothing is lost.
/// The hidden bit and the fraction, times two to the exponent, are compared in 128 bits.
#[test]
fn bits_are_exact() {
    for whole in edges()
        .into_iter()
        .chain(many())
        .filter(|whole| *whole != 0)
    {
        for power in [0, 8, 10] {
            let bits = double(whole, power).0;
            let exponent = (bits >> 52) & 0x7FF;
            let fraction = bits & ((1 << 52) - 1);
            let size = (1_i128 << 52) + i128::from(fraction);
            let sign = if bits >> 63 == 1 { -1 } else { 1 };
            let down = 1023 + 52 - exponent;
            assert_eq!((sign * size) << power, i128::from(whole) << down, "{whole}");
        }
    }
}

/// The worked point of the bench's page: K1 and K2.
/// 25767233 / 256 is 100653.25390625.
#[test]
fn the_pages_point() {
    check(&format!(
        "point {ONE} {TWO} {DATA} 1 1 0 => t=40A3980000000000 p=40F892D410000000 h=0000000000000000 known=1,1,0
         cells {ONE} {TWO} {DATA} 1 1 0 => t=40A3980000000000 p=40F892D410000000 h!10
         point {ONE} {TWO} {DATA} 1 1 1 => t=40A3980000000000 p=40F892D410000000 h=4042716000000000 known=1,1,1
         cells {ONE} {TWO} {DATA} 1 1 1 => t=40A3980000000000 p=40F892D410000000 h=4042716000000000"
    ));
    assert_eq!(f64::from_bits(0x40A3_9800_0000_0000), 2508.0);
    assert_eq!(f64::from_bits(0x40F8_92D4_1000_0000), 100_653.253_906_25);
    assert_eq!(f64::from_bits(0x4042_7160_0000_0000), 37_771.0 / 1024.0);
}

/// A missing channel is positive zero with flag 0; its cell has the number.
/// A reading refused whole with 2 or 7 is a point and has cells too.
#[test]
fn missing_channels() {
    let zero = "0000000000000000";
    let none = format!("t={zero} p={zero} h={zero} known=0,0,0");
    let no_divisor = ONE.replace("7D8E43D6", "000043D6");
    check(&format!(
        "point {ONE} {TWO} {DATA} 0 1 0 => {none}
         cells {ONE} {TWO} {DATA} 0 1 0 => t!10 p!11 h!10
         point {no_divisor} {TWO} {DATA} 1 1 1 => t=40A3980000000000 p={zero} h=4042716000000000 known=1,0,1
         cells {no_divisor} {TWO} {DATA} 1 1 1 => t=40A3980000000000 p!13 h=4042716000000000
         point {ONE} {TWO} {DATA} 1 1 8 => {none}
         cells {ONE} {TWO} {DATA} 1 1 8 => t!7 p!7 h!7
         point {ONE} {TWO} - 1 1 8 => {none}
         cells {ONE} {TWO} - 1 1 8 => t!2 p!2 h!2
         cells - {TWO} {DATA} 0 0 0 => t!2 p!2 h!2
         cells {ONE} 00 {DATA} 0 0 0 => t!2 p!2 h!2
         cells {ONE} {TWO} {DATA} 0 0 0 => t!10 p!10 h!10"
    ));
}

/// Two rooms: 2508 and 2510, 25767233 and 25768074, 37771 and 37772.
/// Each tolerance is put at the difference, one below it and above it.
#[test]
fn tolerances() {
    let here = format!("{ONE} {TWO} 655AC07EED006E00 1 1 1");
    let there = format!("{ONE} {TWO} 655AD07EF1F06DFF 1 1 1");
    check(&format!(
        "comp {here} => 0 t=2508 fine=128422 p=25767233 h=37771
         comp {there} => 0 t=2510 fine=128537 p=25768074 h=37772
         rooms {here} {there} 2 841 1 => t=agree p=agree h=agree
         rooms {there} {here} 2 841 1 => t=agree p=agree h=agree
         rooms {here} {there} 1 841 1 => t=differ p=agree h=agree
         rooms {here} {there} 2 840 1 => t=agree p=differ h=agree
         rooms {here} {there} 2 841 0 => t=agree p=agree h=differ
         rooms {there} {here} 1 840 0 => t=differ p=differ h=differ
         rooms {here} {there} 3 842 2 => t=agree p=agree h=agree
         rooms {here} {there} 0 0 0 => t=differ p=differ h=differ
         rooms {here} {here} 0 0 0 => t=agree p=agree h=agree
         rooms {here} {there} 4294967295 4294967295 4294967295 => t=agree p=agree h=agree"
    ));
}

/// Where one room or both lack a channel the answer is unknown, by any tolerance.
/// A room refused whole is unknown in all three, also beside itself.
#[test]
fn unknown_channels() {
    let whole = format!("{ONE} {TWO} {DATA} 1 1 1");
    let dry = format!("{ONE} {TWO} {DATA} 1 1 0");
    let cold = format!("{ONE} {TWO} {DATA} 0 1 1");
    let short = format!("{ONE} {TWO} 00 1 1 1");
    let beyond = format!("{ONE} {TWO} {DATA} 1 9 1");
    let highest = "4294967295 4294967295 4294967295";
    let none = "t=unknown p=unknown h=unknown";
    check(&format!(
        "rooms {whole} {dry} {highest} => t=agree p=agree h=unknown
         rooms {dry} {whole} 0 0 0 => t=agree p=agree h=unknown
         rooms {dry} {dry} 0 0 0 => t=agree p=agree h=unknown
         rooms {whole} {cold} {highest} => {none}
         rooms {cold} {dry} {highest} => {none}
         rooms {whole} {short} {highest} => {none}
         rooms {short} {whole} 0 0 0 => {none}
         rooms {beyond} {whole} {highest} => {none}
         rooms {whole} {beyond} 0 0 0 => {none}
         rooms {short} {short} {highest} => {none}
         rooms {beyond} {beyond} {highest} => {none}
         rooms {short} {beyond} {highest} => {none}"
    ));
}

/// None of these lines touches the machine: a burst under which they come stays whole.
/// The ledger is the same before and after.
#[test]
fn the_machine_stays() {
    let six = format!("{ONE} {TWO} {DATA} 1 1 0");
    let point = "t=40A3980000000000 p=40F892D410000000 h=0000000000000000 known=1,1,0";
    check(&format!(
        "point {six} => {point}
         copied => 0
         write F4 27 => 0
         point {six} => {point}
         copied => 0
         finish 519888 415148 0 => 0
         open F7 => 0
         byte => 0 65
         byte => 0 5A
         byte => 0 C0
         cells {six} => t=40A3980000000000 p=40F892D410000000 h!10
         byte => 0 7E
         byte => 0 ED
         rooms {six} {six} 0 0 0 => t=agree p=agree h=unknown
         byte => 0 00
         byte => 0 80
         cells - - - 1 1 1 => t!2 p!2 h!2
         byte => 0 00
         ledger => begun=1 delivered=0 overwritten=0 abandoned=0 standing=1 running=0 waiting=0 shown=1
         point {six} => {point}
         ledger => begun=1 delivered=0 overwritten=0 abandoned=0 standing=1 running=0 waiting=0 shown=1
         close 8 => 0 whole n=1 codes=1,1,0 before=0 buf=655AC07EED008000"
    ));
}
