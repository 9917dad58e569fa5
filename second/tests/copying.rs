//! Copying before each conversion: what it refuses, what it lets through, and what ends it.

mod common;

use common::{answer, check};
use second::copying;
use second::generate::{Generator, Kind};
use second::lines::Bench;

const PARTIAL: &str = "0 partial n=0 codes=0,0,0 before=0 buf=AAAAAAAAAAAAAAAA";
const COUNTS: [&str; 8] = [
    "begun",
    "delivered",
    "overwritten",
    "abandoned",
    "standing",
    "running",
    "waiting",
    "shown",
];

/// Spells the rows of one word: the status burst with its byte, the ledger with its eight counts.
/// Any other row stays, but for the word of a partial close.
fn rows(command: &str, said: &str) -> Vec<String> {
    match (command, said) {
        ("status", byte) => vec![
            String::from("open F3 => 0"),
            format!("byte => 0 {byte}"),
            format!("close 8 => {PARTIAL}"),
        ],
        ("ledger", counts) => {
            let named = COUNTS.iter().zip(counts.split(' '));
            let named: Vec<String> = named
                .map(|(name, count)| format!("{name}={count}"))
                .collect();
            vec![format!("ledger => {}", named.join(" "))]
        }
        (_, "partial") => vec![format!("{command} => {PARTIAL}")],
        _ => vec![format!("{command} => {said}")],
    }
}

/// Holds a stored walk to its answers, each worked out by hand from the paper.
/// The commands of the script must be those of the walk.
fn hold(walk: &str, script: &str) {
    let mut spelled = Vec::new();
    for row in script.split(';').map(str::trim) {
        let (command, said) = row.split_once(" => ").expect("a row has an arrow");
        spelled.extend(rows(command, said));
    }
    let commands = spelled.iter().filter_map(|row| row.split_once(" => "));
    let commands: Vec<&str> = commands.map(|(command, _)| command).collect();
    assert_eq!(commands, copying::spelled(walk));
    check(&spelled.join("\n"));
}

/// A written F4 that begins sets copying, with either forced mode.
/// The status byte is 1, 0, 9, 8 and 0 again.
#[test]
fn forced() {
    hold(
        copying::FORCED,
        "fresh => 0; status => 01; wake => 6; finish 1 2 3 => 6; copied => 0; copied => 6; status => 00;
         write F4 25 => 0; status => 09; ledger => 1 0 0 0 1 1 0 0; finish 1 2 3 => 6;
         copied => 0; status => 08; ledger => 1 0 0 0 1 1 0 0; copied => 6;
         finish 1 2 3 => 0; status => 00; copied => 6; finish 1 2 3 => 6; ledger => 1 0 0 0 1 0 0 1;
         write F4 26 => 0; wake => 6; finish 4 5 6 => 6; copied => 0; finish 4 5 6 => 0;
         write F2 01 => 0; ledger => 2 0 1 0 1 0 0 1",
    );
}

/// A wake sets copying, and a wake refused for the phase changes nothing.
/// Mode 2 begins from standby.
#[test]
fn woken() {
    hold(
        copying::WOKEN,
        "fresh => 0; copied => 0; write F4 27 => 0; status => 09; finish 1 2 3 => 6;
         copied => 0; finish 1 2 3 => 0; status => 00; copied => 6;
         wake => 0; wake => 6; status => 09; finish 4 5 6 => 6; ledger => 2 0 0 0 2 1 0 1;
         copied => 0; status => 08; copied => 6; finish 4 5 6 => 0; finish 7 8 9 => 6;
         ledger => 2 0 1 0 1 0 0 1; write F4 26 => 0; status => 09; wake => 6; finish 7 8 9 => 6;
         copied => 0; finish 7 8 9 => 0; ledger => 3 0 2 0 1 0 0 1",
    );
}

/// A held F4 that begins sets copying: forced after forced, normal after forced, forced after normal.
/// The finish that it took effect at was done when copying was over.
#[test]
fn held() {
    hold(
        copying::HELD,
        "fresh => 0; copied => 0; write F4 25 => 0; write F4 49 => 0; finish 1 2 3 => 6; copied => 0;
         finish 1 2 3 => 0; open F3 => 0; byte => 0 09; byte => 0 49; close 8 => partial;
         ledger => 2 0 0 0 2 1 0 1; finish 4 5 6 => 6; write F4 4B => 0; write F4 00 => 1; copied => 0;
         finish 4 5 6 => 0; open F3 => 0; byte => 0 09; byte => 0 4B; close 8 => partial;
         finish 7 8 9 => 6; copied => 0; write F4 25 => 0;
         finish 7 8 9 => 0; open F3 => 0; byte => 0 09; byte => 0 25; close 8 => partial;
         finish 1 2 3 => 6; copied => 0; copied => 6; finish 1 2 3 => 0; status => 00;
         ledger => 4 0 3 0 1 0 0 1",
    );
}

/// Mode 0 in sleep and held, mode 3 in standby held and written: none of them sets copying.
/// The codes latched in standby are those of the next wake.
#[test]
fn nothing_begun() {
    hold(
        copying::NOTHING_BEGUN,
        "fresh => 0; copied => 0; write F4 24 => 0; status => 00; copied => 6; write F2 01 => 0;
         write F4 27 => 0; write F4 24 => 0; copied => 0; finish 1 2 3 => 0; status => 00; copied => 6;
         write F5 FF => 0; write F2 02 => 0; write F4 27 => 0; write F4 6F => 0; copied => 0;
         finish 4 5 6 => 0; open F3 => 0; byte => 0 00; byte => 0 6F; close 8 => partial; copied => 6;
         finish 7 8 9 => 6; write F2 03 => 0; write F4 4B => 0; status => 00; copied => 6;
         finish 7 8 9 => 6; write F2 05 => 0; write F5 00 => 1; ledger => 2 0 1 0 1 0 0 1;
         wake => 0; finish 7 8 9 => 6; copied => 0; finish 7 8 9 => 0; open F7 => 0;
         byte => 0 00; byte => 0 00; byte => 0 80; byte => 0 00; byte => 0 00; byte => 0 70;
         byte => 0 00; byte => 0 09;
         close 8 => 0 whole n=3 codes=2,2,3 before=0 buf=0000800000700009;
         ledger => 3 1 2 0 0 0 0 0",
    );
}

/// 5 is given in sleep alone; in a copying conversion F2 is taken, F5 ignored, F4 held, then ignored.
/// 4 comes before all of them.
#[test]
fn running_rules() {
    hold(
        copying::RUNNING_RULES,
        "fresh => 0; write F2 01 => 5; write F4 25 => 5; write F5 00 => 5; write E0 00 => 1;
         copied => 0; write F4 25 => 0; write F3 00 => 4; write 74 25 => 4; write F2 FC => 0;
         write F5 E0 => 1; write F4 49 => 0; write F4 00 => 1; open F2 => 0; byte => 0 04; byte => 0 09;
         byte => 0 25; byte => 0 00; close 8 => partial; copied => 0; write F5 E0 => 1;
         write F4 00 => 1; write F2 06 => 0; finish 1 2 3 => 0; write F2 01 => 0; write F5 E0 => 1;
         finish 4 5 6 => 6; copied => 0; finish 4 5 6 => 0; open F7 => 0;
         byte => 0 00; byte => 0 00; byte => 0 50; byte => 0 00; byte => 0 00; byte => 0 40;
         byte => 0 00; byte => 0 06;
         close 8 => 0 whole n=2 codes=2,2,6 before=0 buf=0000500000400006;
         write F5 E0 => 0; ledger => 2 1 1 0 0 0 0 0",
    );
}

/// A reset abandons a copying conversion and leaves the device copying in sleep.
/// A power event does so too, and ends an open burst.
#[test]
fn resets() {
    hold(
        copying::RESETS,
        "fresh => 0; copied => 0; write F4 27 => 0; write E0 B5 => 1; finish 1 2 3 => 6;
         write E0 B6 => 0; ledger => 1 0 0 1 0 0 0 0; finish 1 2 3 => 6; status => 01;
         write F2 01 => 5; write F4 25 => 5; write F5 00 => 5; copied => 0; copied => 6;
         write F4 25 => 0; write F4 25 => 0; write E0 B6 => 0; copied => 0; write F4 49 => 0;
         copied => 0; write E0 B7 => 1; finish 1 2 3 => 0; copied => 6; status => 00;
         ledger => 3 0 0 2 1 0 0 1; write F4 25 => 0; open F7 => 0; power => 0; byte => 6;
         ledger => 4 0 0 4 0 0 0 0; finish 1 2 3 => 6; write F2 01 => 5; copied => 0; write F2 01 => 0",
    );
}

/// 6 comes before 7 and 8, and 8 sets no copying: by finish, by wake and by write.
/// 5 comes before 8.
#[test]
fn barred() {
    hold(
        copying::BARRED,
        "fresh => 0; copied => 0; write F4 25 => 0; finish 1048576 0 0 => 6; finish 0 0 65536 => 6;
         copied => 0; finish 1048576 0 0 => 7; finish 0 0 65536 => 7; finish 0 0 0 => 0;
         fresh 4294967294 => 0; copied => 0; write F4 25 => 0; write F4 25 => 0; finish 1 2 3 => 6;
         finish 1048576 2 3 => 6; copied => 0; finish 1048576 2 3 => 7; finish 1 2 3 => 8;
         copied => 6; status => 08; ledger => 4294967295 4294967294 0 0 1 1 0 0;
         fresh 4294967294 => 0; copied => 0; write F4 27 => 0; copied => 0; finish 1 2 3 => 0;
         wake => 8; copied => 6; status => 00; write F2 01 => 0; write F4 25 => 8; copied => 6;
         write F4 00 => 0; write F4 27 => 8; copied => 6; write F2 02 => 0;
         ledger => 4294967295 4294967294 0 0 1 0 0 1;
         fresh 4294967295 => 0; wake => 6; write F4 25 => 5; copied => 0; write F4 25 => 8;
         copied => 6; write F2 01 => 0; ledger => 4294967295 4294967295 0 0 0 0 0 0",
    );
}

/// A wake, a copied event and a held F4 under an open burst.
/// The data bytes are those of the conversion shown at its opening.
#[test]
fn under_bursts() {
    hold(
        copying::UNDER_BURSTS,
        "fresh => 0; copied => 0; write F4 27 => 0; copied => 0; finish 1 2 3 => 0; open F7 => 0;
         byte => 0 00; wake => 0; write F2 01 => 3; finish 4 5 6 => 6; byte => 0 00; byte => 0 20;
         ledger => 2 0 0 0 2 1 0 1; copied => 0; finish 4 5 6 => 0; wake => 0; finish 7 8 9 => 6;
         byte => 0 00; byte => 0 00; byte => 0 10; byte => 0 80; byte => 0 00; copied => 0;
         finish 7 8 9 => 0; close 8 => 0 whole n=1 codes=1,1,0 before=0 buf=0000200000108000;
         ledger => 3 1 1 0 1 0 0 1; open F2 => 0; byte => 0 00; wake => 0; byte => 0 09;
         close 8 => partial; open F3 => 0; copied => 0; byte => 0 08; close 8 => partial;
         write F4 25 => 0; open F2 => 0; byte => 0 00; finish 1 2 3 => 0; byte => 0 09;
         finish 4 5 6 => 6; copied => 0; finish 4 5 6 => 0; byte => 0 24; close 8 => partial;
         ledger => 5 1 3 0 1 0 0 1",
    );
}

/// Each walk starts in the fresh state, and all of them end in it.
/// No line of theirs is spoilt.
#[test]
fn lines_are_commands() {
    let lines = copying::lines();
    assert_eq!(lines.last().map(String::as_str), Some("fresh"));
    assert!(copying::WALKS.iter().all(|walk| walk.starts_with("fresh;")));
    let mut bench = Bench::default();
    assert!(lines
        .iter()
        .all(|line| !answer(&mut bench, line).starts_with('?')));
}

/// Reads two of the ledger's counts: how many have begun, and whether one is running.
/// They tell a beginning without a look at the machine.
fn begun_and_running(bench: &mut Bench) -> (u64, bool) {
    let ledger = answer(bench, "ledger");
    let count = |place: usize| -> u64 {
        let word = ledger.split(' ').nth(place).expect("eight counts");
        let (_, count) = word.split_once('=').expect("a count has a name");
        count.parse().expect("a decimal")
    };
    (count(0), count(5) == 1)
}

/// Generated walks: copying, followed by the paper's sentence alone, says which events give 5 and 6.
/// It is set by reset, power and each beginning, and ended by copied.
#[test]
fn generated_walks() {
    let mut refused = [0; 4];
    for seed in 20..24 {
        let mut generator = Generator::new(Kind::Events, seed);
        let mut bench = Bench::default();
        let mut copying = true;
        let mut bmp = false;
        for _ in 0..10_000 {
            let line = generator.line();
            bmp = match line.strip_prefix("fresh") {
                Some(rest) => rest.starts_with(" bmp"),
                None => bmp,
            };
            let (before, running) = begun_and_running(&mut bench);
            let said = answer(&mut bench, &line);
            let (after, _) = begun_and_running(&mut bench);
            let words: Vec<&str> = line.split(' ').collect();
            match words[0] {
                "copied" => assert_eq!(said == "0", copying, "{line}"),
                "finish" => assert_eq!(said == "6", !running || copying, "{line}"),
                "write" if bmp && words[1] == "F2" => assert!(said == "3" || said == "4", "{line}"),
                "write" if ["F2", "F4", "F5"].contains(&words[1]) && said != "3" => {
                    assert_eq!(said == "5", copying && !running, "{line}");
                }
                _ => assert_ne!(said, "5", "{line}"),
            }
            refused[0] += u32::from(words[0] == "finish" && running && copying);
            refused[1] += u32::from(words[0] == "write" && running && copying);
            refused[2] += u32::from(said == "5");
            refused[3] += u32::from(words[0] == "copied" && said == "6");
            let reset = said == "0" && words[0] == "write" && words[1] == "E0";
            copying = match words[0] {
                "fresh" | "power" => true,
                "copied" => false,
                _ => copying || reset || after > before,
            };
        }
    }
    assert!(refused.iter().all(|count| *count > 50), "{refused:?}");
}
