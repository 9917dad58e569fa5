//! Walks of a BMP280, kept as fixed lines.
//!
//! Semicolons part the lines of a walk. Of the words that stand for several lines, `id`, `status`
//! and `burst` are bursts that read D0, F3, and F7 to FC; `all` is one that reads every address and
//! one past them; `bytes 3` is three byte events.

use crate::copying;

/// The kind is chosen with the fresh state, with and without a number, and a fresh BME280 is none.
/// The chip's id, the fresh bytes, the buffer and the codes tell the two apart.
pub const CHOSEN: &str = "fresh bmp;id;burst;ledger;fresh;open D0;byte;close 6;close 8;open F7;bytes 6;\
    close 8;open F7;bytes 8;close 8;fresh bmp 7;id;ledger;copied;write F4 25;copied;finish 1 2 3;burst;ledger;\
    fresh 7;open D0;byte;close 8;copied;write F2 05;write F4 25;copied;finish 1 2 3;open F7;bytes 8;close 8;\
    ledger;fresh bmp x;open D0;byte;close 8;fresh bmp 1 2;fresh bmp ;close 8;open F2;byte;close 8;fresh bmp;\
    fresh x;fresh 1 2;id;fresh  ;id;burst";

/// A reset and a power event keep the kind, in each phase and under a burst.
/// All else is fresh after them, and the ledger goes on.
pub const KEPT: &str = "fresh bmp;copied;write F4 27;copied;finish 519888 415148 8192;write E0 B6;id;\
    status;burst;write F2 01;copied;write F2 01;write E0 B5;id;write F4 25;write F4 49;open F7;bytes 3;\
    write E0 B6;power;byte;close 6;id;burst;write F2 01;ledger;copied;write F5 FF;write F4 4A;copied;\
    finish 1 2 3;power;open F2;bytes 4;close 8;close 6;copied;write F4 27;write E0 B6;id;write F2 01;copied;\
    write F4 6D;copied;finish 4 5 6;burst;ledger;power;power;id;burst;write E0 B6;id;burst;ledger";

/// F2 is no register to write: 4 while copying too, in sleep, in a conversion and in standby, and 3 in a burst.
/// It reads as 0, and the codes latched by a written F4, a held one and a wake end in 0.
pub const NO_F2: &str = "fresh bmp;write F2 01;write F4 25;write F5 20;open F2;write F2 01;byte;close 6;\
    write F2 07;copied;write F2 01;write F2 00;write F2 FF;write F3 01;write 72 01;write F4 25;write F2 01;\
    open F2;bytes 3;write F2 01;close 6;copied;write F2 02;write F4 4B;write F2 03;finish 1 2 3;burst;\
    write F2 04;copied;finish 4 5 6;write F2 05;open F2;byte;write F2 06;close 6;burst;wake;write F2 07;copied;\
    write F2 07;finish 7 8 9;burst;write F4 24;write F2 01;write F4 25;copied;finish 7 8 9;open F1;bytes 14;\
    close 6;ledger;fresh bmp 4294967295;write F2 01;copied;write F2 01;write F4 25;write F2 07;ledger;fresh;\
    write F2 01;copied;write F2 01;write F4 25;write F2 02;open F2;byte;close 8";

/// A burst is whole when it has given F7 to FC, whether it ends there, at FD, FE or FF, or past FF.
/// One that ends at FB or starts at F8 is not, and a close wants six bytes in each of these.
pub const BURSTS: &str = "fresh bmp;copied;write F4 25;copied;finish 1048575 1048574 65535;open F7;bytes 5;\
    close 8;close 6;ledger;open F7;bytes 6;close 0;close 5;close 7;close 8;close 256;close 6;ledger;open F7;\
    bytes 7;close 7;close 6;open F7;bytes 8;close 8;close 6;open F7;bytes 9;byte;byte;close 6;open F6;bytes 6;\
    close 6;open F6;bytes 7;close 6;open F8;bytes 5;close 6;open F8;bytes 8;byte;close 6;open FC;bytes 4;byte;\
    close 6;open FD;bytes 3;close 6;open F2;bytes 11;close 6;open FD;close 6;open 7F;open F7;open F7;open 00;\
    write F4 25;close 6;byte;close 6;close 8;ledger";

/// Three counts come, and the third is checked like the others, after copying; it is stored nowhere.
/// Skipped channels store 0x80000, and that count in an enabled one is a count like any other.
pub const COUNTS: &str = "fresh bmp;finish 1 2 3;copied;write F4 25;finish 1 2 65536;copied;finish 1 2 65536;\
    finish 1 2 4294967295;finish 1048576 2 3;finish 1 1048576 3;finish 1 2 65535;burst;write F4 01;copied;\
    finish 1048575 1048575 65536;finish 1048575 1048575 32768;burst;write F4 21;copied;finish 524288 7 0;burst;\
    write F4 05;copied;finish 7 524288 65535;open F7;bytes 8;close 6;finish 1 2 65536;ledger;write F4 FD;copied;\
    finish 1 2 0;burst;fresh;copied;write F4 25;copied;finish 1 2 65536;finish 1 2 65535;open F7;bytes 8;close 8";

/// Every address is read: in the fresh state, in a copying conversion, in standby and again, and after a second finish.
/// All bits of the counts are set, and the control registers are.
pub const ADDRESSES: &str = "fresh bmp;all;copied;write F5 FF;write F4 FF;write F2 07;all;copied;\
    finish 1048575 1048575 65535;all;wake;copied;all;finish 699050 349525 43690;all;ledger";

/// K12 and K13 of a BMP280, with six bytes and five; repeated bursts, and what waits under an open one.
/// A burst of six bytes delivers, and a power event finds what is left.
pub const DELIVERED: &str = "fresh bmp;copied;write F4 27;copied;finish 519888 415148 0;wake;copied;open F7;\
    finish 519889 415149 1;bytes 6;close 6;ledger;burst;burst;ledger;fresh bmp;copied;write F4 27;copied;\
    finish 519888 415148 0;wake;copied;open F7;finish 519889 415149 1;bytes 5;close 6;ledger;open F7;bytes 6;\
    wake;copied;finish 1 2 3;wake;copied;finish 4 5 6;ledger;bytes 2;close 6;ledger;wake;copied;open F7;bytes 6;\
    finish 7 8 9;wake;power;close 6;ledger;fresh;copied;write F4 27;copied;finish 519888 415148 0;open F7;\
    bytes 6;close 8;ledger";

/// Number 8 by write, by wake, and by finish with a held F4, from a BMP280's own numbers.
/// 4 for F2 comes before it, and the last conversion is read.
pub const LAST: &str = "fresh bmp 4294967295;write F4 25;copied;write F4 25;write F2 01;write F4 24;\
    fresh bmp 4294967294;copied;write F4 27;copied;finish 1 2 3;wake;write F4 25;write F4 27;burst;ledger;\
    fresh bmp 4294967294;copied;write F4 25;write F4 49;finish 1 2 3;copied;finish 1 2 65536;finish 1 2 3;\
    write F2 01;status;write E0 B6;id;ledger;fresh bmp 4294967293;copied;write F4 25;write F4 49;copied;\
    finish 1 2 3;copied;finish 4 5 6;burst;ledger";

/// Lists all walks, in a fixed order.
/// Each starts in a BMP280's fresh state.
pub const WALKS: [&str; 8] = [
    CHOSEN, KEPT, NO_F2, BURSTS, COUNTS, ADDRESSES, DELIVERED, LAST,
];

/// Spells a walk as lines.
/// The words for bursts and bytes become the lines that they stand for.
pub fn spelled(walk: &str) -> Vec<&str> {
    let burst = |open, bytes| [vec![open], vec!["byte"; bytes], vec!["close 6"]].concat();
    let mut lines = Vec::new();
    for line in walk.split(';') {
        match line {
            "id" => lines.extend(burst("open D0", 1)),
            "status" => lines.extend(burst("open F3", 1)),
            "burst" => lines.extend(burst("open F7", 6)),
            "all" => lines.extend(burst("open 80", 129)),
            other => match other.strip_prefix("bytes ").map(str::parse) {
                Some(Ok(count)) => lines.extend(vec!["byte"; count]),
                _ => lines.push(other),
            },
        }
    }
    lines
}

/// Tells a walk of a BME280 again, of a BMP280: its fresh states and its closes are changed.
/// Bursts keep their eight bytes, and F2 is still written.
pub fn retold(walk: &str) -> Vec<String> {
    let lines = copying::spelled(walk).into_iter();
    let retold = lines.map(|line| match line {
        "close 8" => String::from("close 6"),
        _ => line.replace("fresh", "fresh bmp"),
    });
    retold.collect()
}

/// Lists the lines of all walks, and the walks of copying told again.
/// They end in a BMP280's state.
pub fn lines() -> Vec<String> {
    let own = WALKS.into_iter().flat_map(spelled).map(String::from);
    own.chain(copying::WALKS.into_iter().flat_map(retold))
        .collect()
}
