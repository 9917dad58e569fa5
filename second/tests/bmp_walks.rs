//! A BMP280's walks: every answer worked out by hand from the paper.

mod common;

use common::check;
use second::bmp::walks;

const PARTIAL: &str = "0 partial n=0 codes=0,0,0 before=0 buf=AAAAAAAAAAAA";
const COUNTS: [&str; 8] = [
    "begun",
    "delivered",
    "overwritten",
    "abandoned",
    "standing",
    "running",
    "waiting",
    "shown",
];

/// Spells byte events with the bytes that they give.
/// The bytes stand with spaces between them.
fn bytes(given: &str) -> Vec<String> {
    let given = given.split(' ');
    given.map(|byte| format!("byte => 0 {byte}")).collect()
}

/// Spells a burst from an address: its opening, the bytes given, and what its close says.
/// A partial close has a word of its own.
fn burst(open: &str, given: &str, close: &str) -> Vec<String> {
    let close = match close {
        "partial" => format!("close 6 => {PARTIAL}"),
        _ => format!("close 6 => 0 {close}"),
    };
    let open = vec![format!("open {open} => 0")];
    [open, bytes(given), vec![close]].concat()
}

/// Spells the six bytes of a whole burst, as its buffer has them.
/// They come in their order.
fn six(close: &str) -> String {
    let (_, buffer) = close.split_once("buf=").expect("a buffer");
    let pairs = (0..6).map(|place| &buffer[2 * place..2 * place + 2]);
    pairs.collect::<Vec<&str>>().join(" ")
}

/// Spells the burst of all addresses: those named have a byte beside them, all others give 0.
/// Past the last one 4 is given, before the close.
fn all(said: &str) -> Vec<String> {
    let (named, close) = said.split_once(" / ").expect("a close");
    let given = (0x80..=0xFF).map(|address| {
        let name = format!("{address:02X}=");
        let byte = named.split(' ').find_map(|word| word.strip_prefix(&name));
        byte.unwrap_or("00")
    });
    let mut rows = burst("80", &given.collect::<Vec<&str>>().join(" "), close);
    rows.insert(129, String::from("byte => 4"));
    rows
}

/// Spells the rows of one word of a walk.
/// The ledger has its eight counts, and any other row stays as it is.
fn rows(command: &str, said: &str) -> Vec<String> {
    match (command, said) {
        ("id", byte) => burst("D0", byte, "partial"),
        ("status", byte) => burst("F3", byte, "partial"),
        ("burst", close) => burst("F7", &six(close), close),
        ("all", said) => all(said),
        ("ledger", counts) => {
            let named = COUNTS.iter().zip(counts.split(' '));
            let named: Vec<String> = named
                .map(|(name, count)| format!("{name}={count}"))
                .collect();
            vec![format!("ledger => {}", named.join(" "))]
        }
        (_, "partial") => vec![format!("{command} => {PARTIAL}")],
        _ if command.starts_with("bytes ") => bytes(said),
        _ => vec![format!("{command} => {said}")],
    }
}

/// Holds a stored walk to its answers.
/// The commands of the script must be those of the walk.
fn hold(walk: &str, script: &str) {
    let mut spelled = Vec::new();
    for row in script.split(';').map(str::trim_start) {
        let (command, said) = row.split_once(" => ").expect("a row has an arrow");
        spelled.extend(rows(command, said.trim_end()));
    }
    let commands = spelled.iter().filter_map(|row| row.split_once(" => "));
    let commands: Vec<&str> = commands.map(|(command, _)| command).collect();
    assert_eq!(commands, walks::spelled(walk));
    check(&spelled.join("\n"));
}

/// The kind is chosen with the fresh state, and no spoilt line chooses one.
/// A BME280's burst needs eight bytes where a BMP280's needs six.
#[test]
fn chosen() {
    hold(
        walks::CHOSEN,
        "fresh bmp => 0; id => 58; burst => whole n=0 codes=0,0,0 before=0 buf=800000800000;
         ledger => 0 0 0 0 0 0 0 0; fresh => 0; open D0 => 0; byte => 0 60; close 6 => 2 buf=AAAAAAAAAAAA;
         close 8 => 0 partial n=0 codes=0,0,0 before=0 buf=AAAAAAAAAAAAAAAA;
         open F7 => 0; bytes 6 => 80 00 00 80 00 00;
         close 8 => 0 partial n=0 codes=0,0,0 before=0 buf=AAAAAAAAAAAAAAAA;
         open F7 => 0; bytes 8 => 80 00 00 80 00 00 80 00;
         close 8 => 0 whole n=0 codes=0,0,0 before=0 buf=8000008000008000;
         fresh bmp 7 => 0; id => 58; ledger => 7 7 0 0 0 0 0 0; copied => 0; write F4 25 => 0; copied => 0;
         finish 1 2 3 => 0; burst => whole n=8 codes=1,1,0 before=0 buf=000020000010;
         ledger => 8 8 0 0 0 0 0 0; fresh 7 => 0; open D0 => 0; byte => 0 60;
         close 8 => 0 partial n=0 codes=0,0,0 before=0 buf=AAAAAAAAAAAAAAAA; copied => 0; write F2 05 => 0;
         write F4 25 => 0; copied => 0; finish 1 2 3 => 0; open F7 => 0; bytes 8 => 00 00 20 00 00 10 00 03;
         close 8 => 0 whole n=8 codes=1,1,5 before=0 buf=0000200000100003; ledger => 8 8 0 0 0 0 0 0;
         fresh bmp x => ? not a number; open D0 => 0; byte => 0 60;
         close 8 => 0 partial n=0 codes=0,0,0 before=0 buf=AAAAAAAAAAAAAAAA;
         fresh bmp 1 2 => ? wrong number of words; fresh bmp  => ? not a number; close 8 => 6 buf=AAAAAAAAAAAAAAAA;
         open F2 => 0; byte => 0 05; close 8 => 0 partial n=0 codes=0,0,0 before=0 buf=AAAAAAAAAAAAAAAA;
         fresh bmp => 0; fresh x => ? not a number; fresh 1 2 => ? wrong number of words; id => 58;
         fresh   => ? wrong number of words; id => 58; burst => whole n=0 codes=0,0,0 before=0 buf=800000800000",
    );
}

/// Resets and power events keep the kind: after a finish, in a copying conversion with a held F4 and a burst, and in sleep.
/// A reset can't come under a burst, but a power event can.
#[test]
fn kept() {
    let none = "burst => whole n=0 codes=0,0,0 before=0 buf=800000800000";
    hold(
        walks::KEPT,
        &format!(
            "fresh bmp => 0; copied => 0; write F4 27 => 0; copied => 0; finish 519888 415148 8192 => 0;
             write E0 B6 => 0; id => 58; status => 01; {none}; write F2 01 => 4; copied => 0; write F2 01 => 4;
             write E0 B5 => 1; id => 58; write F4 25 => 0; write F4 49 => 0; open F7 => 0; bytes 3 => 80 00 00;
             write E0 B6 => 3; power => 0; byte => 6; close 6 => 6 buf=AAAAAAAAAAAA; id => 58; {none};
             write F2 01 => 4; ledger => 2 0 0 2 0 0 0 0; copied => 0; write F5 FF => 0; write F4 4A => 0;
             copied => 0; finish 1 2 3 => 0; power => 0; open F2 => 0; bytes 4 => 00 01 00 00;
             close 8 => 2 buf=AAAAAAAAAAAAAAAA; close 6 => partial; copied => 0; write F4 27 => 0;
             write E0 B6 => 0; id => 58; write F2 01 => 4; copied => 0; write F4 6D => 0; copied => 0;
             finish 4 5 6 => 0; burst => whole n=5 codes=3,3,0 before=0 buf=000050000040;
             ledger => 5 1 0 4 0 0 0 0; power => 0; power => 0; id => 58; {none}; write E0 B6 => 0; id => 58; {none};
             ledger => 5 1 0 4 0 0 0 0"
        ),
    );
}

/// 4 for F2 comes after 3 and before 5, and in every phase.
/// The last conversion is read from F1 on, so that F2, FD and FE are seen to be 0.
#[test]
fn no_f2() {
    hold(
        walks::NO_F2,
        "fresh bmp => 0; write F2 01 => 4; write F4 25 => 5; write F5 20 => 5; open F2 => 0; write F2 01 => 3;
         byte => 0 00; close 6 => partial; write F2 07 => 4; copied => 0; write F2 01 => 4; write F2 00 => 4;
         write F2 FF => 4; write F3 01 => 4; write 72 01 => 4; write F4 25 => 0; write F2 01 => 4; open F2 => 0;
         bytes 3 => 00 09 25; write F2 01 => 3; close 6 => partial; copied => 0; write F2 02 => 4;
         write F4 4B => 0; write F2 03 => 4; finish 1 2 3 => 0;
         burst => whole n=1 codes=1,1,0 before=0 buf=000020000010; write F2 04 => 4; copied => 0;
         finish 4 5 6 => 0; write F2 05 => 4; open F2 => 0; byte => 0 00; write F2 06 => 3; close 6 => partial;
         burst => whole n=2 codes=2,2,0 before=0 buf=000050000040; wake => 0; write F2 07 => 4; copied => 0;
         write F2 07 => 4; finish 7 8 9 => 0; burst => whole n=3 codes=2,2,0 before=0 buf=000080000070;
         write F4 24 => 0; write F2 01 => 4; write F4 25 => 0; copied => 0; finish 7 8 9 => 0; open F1 => 0;
         bytes 14 => 00 00 00 24 00 00 00 00 80 00 00 70 00 00;
         close 6 => 0 whole n=4 codes=1,1,0 before=0 buf=000080000070;
         ledger => 4 4 0 0 0 0 0 0; fresh bmp 4294967295 => 0; write F2 01 => 4; copied => 0; write F2 01 => 4;
         write F4 25 => 8; write F2 07 => 4; ledger => 4294967295 4294967295 0 0 0 0 0 0; fresh => 0;
         write F2 01 => 5; copied => 0; write F2 01 => 0; write F4 25 => 0; write F2 02 => 0; open F2 => 0;
         byte => 0 02; close 8 => 0 partial n=0 codes=0,0,0 before=0 buf=AAAAAAAAAAAAAAAA",
    );
}

/// Bursts that end at each address from FB on, and that start at F6, F7 and F8.
/// A close with another length leaves the burst open.
#[test]
fn bursts() {
    let whole =
        |before: u8| format!("close 6 => 0 whole n=1 codes=1,1,0 before={before} buf=FFFFE0FFFFF0");
    let (first, again) = (whole(0), whole(1));
    hold(
        walks::BURSTS,
        &format!(
            "fresh bmp => 0; copied => 0; write F4 25 => 0; copied => 0; finish 1048575 1048574 65535 => 0;
             open F7 => 0; bytes 5 => FF FF E0 FF FF; close 8 => 2 buf=AAAAAAAAAAAAAAAA; close 6 => partial;
             ledger => 1 0 0 0 1 0 0 1; open F7 => 0; bytes 6 => FF FF E0 FF FF F0; close 0 => 2 buf=-;
             close 5 => 2 buf=AAAAAAAAAA; close 7 => 2 buf=AAAAAAAAAAAAAA; close 8 => 2 buf=AAAAAAAAAAAAAAAA;
             close 256 => 2 buf={}; {first}; ledger => 1 1 0 0 0 0 0 0; open F7 => 0;
             bytes 7 => FF FF E0 FF FF F0 00; close 7 => 2 buf=AAAAAAAAAAAAAA; {again}; open F7 => 0;
             bytes 8 => FF FF E0 FF FF F0 00 00; close 8 => 2 buf=AAAAAAAAAAAAAAAA; {again}; open F7 => 0;
             bytes 9 => FF FF E0 FF FF F0 00 00 00; byte => 4; byte => 4; {again}; open F6 => 0;
             bytes 6 => 00 FF FF E0 FF FF; close 6 => partial; open F6 => 0; bytes 7 => 00 FF FF E0 FF FF F0;
             {again}; open F8 => 0; bytes 5 => FF E0 FF FF F0; close 6 => partial; open F8 => 0;
             bytes 8 => FF E0 FF FF F0 00 00 00; byte => 4; close 6 => partial; open FC => 0;
             bytes 4 => F0 00 00 00; byte => 4; close 6 => partial; open FD => 0; bytes 3 => 00 00 00;
             close 6 => partial; open F2 => 0; bytes 11 => 00 00 24 00 00 FF FF E0 FF FF F0; {again};
             open FD => 0; close 6 => partial; open 7F => 4; open F7 => 0; open F7 => 3; open 00 => 3;
             write F4 25 => 3; close 6 => partial; byte => 6; close 6 => 6 buf=AAAAAAAAAAAA;
             close 8 => 6 buf=AAAAAAAAAAAAAAAA; ledger => 1 1 0 0 0 0 0 0",
            "AA".repeat(256),
        ),
    );
}

/// The third count: 65,535 is taken and 65,536 gives 7, after 6 for copying.
/// No count of it is stored, and the latched code is 0 whatever F4 is.
#[test]
fn counts() {
    hold(
        walks::COUNTS,
        "fresh bmp => 0; finish 1 2 3 => 6; copied => 0; write F4 25 => 0; finish 1 2 65536 => 6; copied => 0;
         finish 1 2 65536 => 7; finish 1 2 4294967295 => 7; finish 1048576 2 3 => 7; finish 1 1048576 3 => 7;
         finish 1 2 65535 => 0; burst => whole n=1 codes=1,1,0 before=0 buf=000020000010; write F4 01 => 0;
         copied => 0; finish 1048575 1048575 65536 => 7; finish 1048575 1048575 32768 => 0;
         burst => whole n=2 codes=0,0,0 before=0 buf=800000800000; write F4 21 => 0; copied => 0;
         finish 524288 7 0 => 0; burst => whole n=3 codes=1,0,0 before=0 buf=800000800000; write F4 05 => 0;
         copied => 0; finish 7 524288 65535 => 0; open F7 => 0; bytes 8 => 80 00 00 80 00 00 00 00;
         close 6 => 0 whole n=4 codes=0,1,0 before=0 buf=800000800000; finish 1 2 65536 => 6;
         ledger => 4 4 0 0 0 0 0 0; write F4 FD => 0; copied => 0; finish 1 2 0 => 0;
         burst => whole n=5 codes=7,7,0 before=0 buf=000020000010; fresh => 0; copied => 0; write F4 25 => 0;
         copied => 0; finish 1 2 65536 => 7; finish 1 2 65535 => 0; open F7 => 0;
         bytes 8 => 00 00 20 00 00 10 80 00; close 8 => 0 whole n=1 codes=1,1,0 before=0 buf=0000200000108000",
    );
}

/// All 128 addresses, five times: only D0, F3, F4, F5 and F7 to FC are ever other than 0.
/// The burst of all is whole.
#[test]
fn addresses() {
    hold(
        walks::ADDRESSES,
        "fresh bmp => 0; all => D0=58 F3=01 F7=80 FA=80 / whole n=0 codes=0,0,0 before=0 buf=800000800000;
         copied => 0; write F5 FF => 0; write F4 FF => 0; write F2 07 => 4;
         all => D0=58 F3=09 F4=FF F5=FD F7=80 FA=80 / whole n=0 codes=0,0,0 before=0 buf=800000800000;
         copied => 0; finish 1048575 1048575 65535 => 0;
         all => D0=58 F4=FF F5=FD F7=FF F8=FF F9=F0 FA=FF FB=FF FC=F0 / whole n=1 codes=7,7,0 before=0 buf=FFFFF0FFFFF0;
         wake => 0; copied => 0;
         all => D0=58 F3=08 F4=FF F5=FD F7=FF F8=FF F9=F0 FA=FF FB=FF FC=F0 / whole n=1 codes=7,7,0 before=1 buf=FFFFF0FFFFF0;
         finish 699050 349525 43690 => 0;
         all => D0=58 F4=FF F5=FD F7=55 F8=55 F9=50 FA=AA FB=AA FC=A0 / whole n=2 codes=7,7,0 before=0 buf=555550AAAAA0;
         ledger => 2 2 0 0 0 0 0 0",
    );
}

/// K12 and K13 with a BMP280's six and five bytes, then what waits and what a power event finds.
/// At the end a BME280 delivers nothing by six bytes.
#[test]
fn delivered() {
    hold(
        walks::DELIVERED,
        "fresh bmp => 0; copied => 0; write F4 27 => 0; copied => 0; finish 519888 415148 0 => 0; wake => 0;
         copied => 0; open F7 => 0; finish 519889 415149 1 => 0; bytes 6 => 65 5A C0 7E ED 00;
         close 6 => 0 whole n=1 codes=1,1,0 before=0 buf=655AC07EED00; ledger => 2 1 0 0 1 0 0 1;
         burst => whole n=2 codes=1,1,0 before=0 buf=655AD07EED10; burst => whole n=2 codes=1,1,0 before=1 buf=655AD07EED10;
         ledger => 2 2 0 0 0 0 0 0; fresh bmp => 0; copied => 0; write F4 27 => 0; copied => 0;
         finish 519888 415148 0 => 0; wake => 0; copied => 0; open F7 => 0; finish 519889 415149 1 => 0;
         bytes 5 => 65 5A C0 7E ED; close 6 => partial; ledger => 2 0 1 0 1 0 0 1; open F7 => 0;
         bytes 6 => 65 5A D0 7E ED 10; wake => 0; copied => 0; finish 1 2 3 => 0; wake => 0; copied => 0;
         finish 4 5 6 => 0; ledger => 4 0 2 0 2 0 1 1; bytes 2 => 00 00;
         close 6 => 0 whole n=2 codes=1,1,0 before=0 buf=655AD07EED10; ledger => 4 1 2 0 1 0 0 1; wake => 0;
         copied => 0; open F7 => 0; bytes 6 => 00 00 50 00 00 40; finish 7 8 9 => 0; wake => 0; power => 0;
         close 6 => 6 buf=AAAAAAAAAAAA; ledger => 6 1 2 3 0 0 0 0; fresh => 0; copied => 0; write F4 27 => 0;
         copied => 0; finish 519888 415148 0 => 0; open F7 => 0; bytes 6 => 65 5A C0 7E ED 00;
         close 8 => 0 partial n=0 codes=0,0,0 before=0 buf=AAAAAAAAAAAAAAAA; ledger => 1 0 0 0 1 0 0 1",
    );
}

/// Number 8 on a BMP280, by each event that begins.
/// A reset after it keeps the kind and the numbers.
#[test]
fn last() {
    hold(
        walks::LAST,
        "fresh bmp 4294967295 => 0; write F4 25 => 5; copied => 0; write F4 25 => 8; write F2 01 => 4;
         write F4 24 => 0; fresh bmp 4294967294 => 0; copied => 0; write F4 27 => 0; copied => 0;
         finish 1 2 3 => 0; wake => 8; write F4 25 => 8; write F4 27 => 0;
         burst => whole n=4294967295 codes=1,1,0 before=0 buf=000020000010;
         ledger => 4294967295 4294967295 0 0 0 0 0 0; fresh bmp 4294967294 => 0; copied => 0; write F4 25 => 0;
         write F4 49 => 0; finish 1 2 3 => 6; copied => 0; finish 1 2 65536 => 7; finish 1 2 3 => 8;
         write F2 01 => 4; status => 08; write E0 B6 => 0; id => 58;
         ledger => 4294967295 4294967294 0 1 0 0 0 0; fresh bmp 4294967293 => 0; copied => 0; write F4 25 => 0;
         write F4 49 => 0; copied => 0; finish 1 2 3 => 0; copied => 0; finish 4 5 6 => 0;
         burst => whole n=4294967295 codes=2,2,0 before=0 buf=000050000040;
         ledger => 4294967295 4294967294 1 0 0 0 0 0",
    );
}
