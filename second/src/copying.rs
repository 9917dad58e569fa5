//! Walks of the copying before each conversion, kept as fixed lines.
//!
//! Semicolons part the lines of a walk. The word `status` stands for a burst that reads F3
//! alone, and the word `burst` for one of the eight bytes from F7 on.

/// A written F4 that begins sets copying, with modes 1 and 2: no finish is done before a copied event.
/// Status is 1 in the fresh state, then 0, 9 and 8; a copied event leaves the conversion running.
pub const FORCED: &str = "fresh;status;wake;finish 1 2 3;copied;copied;status;write F4 25;status;\
    ledger;finish 1 2 3;copied;status;ledger;copied;finish 1 2 3;status;copied;finish 1 2 3;ledger;\
    write F4 26;wake;finish 4 5 6;copied;finish 4 5 6;write F2 01;ledger";

/// A wake sets copying as well, and so do mode 3 from sleep and mode 2 from standby.
/// The standby itself is not copying.
pub const WOKEN: &str = "fresh;copied;write F4 27;status;finish 1 2 3;copied;finish 1 2 3;status;\
    copied;wake;wake;status;finish 4 5 6;ledger;copied;status;copied;finish 4 5 6;finish 7 8 9;\
    ledger;write F4 26;status;wake;finish 7 8 9;copied;finish 7 8 9;ledger";

/// A held F4 that begins sets copying at the finish, after a forced and after a normal conversion.
/// It may be held while copying or after it, and the next one is copying again.
pub const HELD: &str = "fresh;copied;write F4 25;write F4 49;finish 1 2 3;copied;finish 1 2 3;\
    open F3;byte;byte;close 8;ledger;finish 4 5 6;write F4 4B;write F4 00;copied;finish 4 5 6;\
    open F3;byte;byte;close 8;finish 7 8 9;copied;write F4 25;finish 7 8 9;open F3;byte;byte;close 8;\
    finish 1 2 3;copied;copied;finish 1 2 3;status;ledger";

/// What begins nothing sets nothing: mode 0, and mode 3 in standby, written or held.
/// A finish there doesn't fit the phase, and F2 may be written.
pub const NOTHING_BEGUN: &str = "fresh;copied;write F4 24;status;copied;write F2 01;write F4 27;\
    write F4 24;copied;finish 1 2 3;status;copied;write F5 FF;write F2 02;write F4 27;write F4 6F;\
    copied;finish 4 5 6;open F3;byte;byte;close 8;copied;finish 7 8 9;write F2 03;write F4 4B;status;\
    copied;finish 7 8 9;write F2 05;write F5 00;ledger;wake;finish 7 8 9;copied;finish 7 8 9;burst;\
    ledger";

/// While copying in a conversion, writes go by the running rules: F2 is taken, F5 ignored, F4 held or ignored.
/// In sleep all three are refused; the codes of the second conversion show that F2 was taken.
pub const RUNNING_RULES: &str = "fresh;write F2 01;write F4 25;write F5 00;write E0 00;copied;\
    write F4 25;write F3 00;write 74 25;write F2 FC;write F5 E0;write F4 49;write F4 00;open F2;byte;\
    byte;byte;byte;close 8;copied;write F5 E0;write F4 00;write F2 06;finish 1 2 3;write F2 01;\
    write F5 E0;finish 4 5 6;copied;finish 4 5 6;burst;write F5 E0;ledger";

/// A reset or a power event in a copying conversion abandons it, and copying starts anew in sleep.
/// Any other byte to E0 is ignored; a held F4 is gone.
pub const RESETS: &str = "fresh;copied;write F4 27;write E0 B5;finish 1 2 3;write E0 B6;ledger;\
    finish 1 2 3;status;write F2 01;write F4 25;write F5 00;copied;copied;write F4 25;write F4 25;\
    write E0 B6;copied;write F4 49;copied;write E0 B7;finish 1 2 3;copied;status;ledger;write F4 25;\
    open F7;power;byte;ledger;finish 1 2 3;write F2 01;copied;write F2 01";

/// Finish: 6 for copying comes before 7 and 8. Where 8 is given nothing begins, and nothing is set.
/// The last conversion begins by a write; a held F4, a wake and another write are barred after it.
pub const BARRED: &str = "fresh;copied;write F4 25;finish 1048576 0 0;finish 0 0 65536;copied;\
    finish 1048576 0 0;finish 0 0 65536;finish 0 0 0;fresh 4294967294;copied;write F4 25;write F4 25;\
    finish 1 2 3;finish 1048576 2 3;copied;finish 1048576 2 3;finish 1 2 3;copied;status;ledger;\
    fresh 4294967294;copied;write F4 27;copied;finish 1 2 3;wake;copied;status;write F2 01;write F4 25;\
    copied;write F4 00;write F4 27;copied;write F2 02;ledger;fresh 4294967295;wake;write F4 25;copied;\
    write F4 25;copied;write F2 01;ledger";

/// Under an open burst copying begins and ends as ever, and its bytes stay.
/// Status is that of the moment at which its byte is given.
pub const UNDER_BURSTS: &str = "fresh;copied;write F4 27;copied;finish 1 2 3;open F7;byte;wake;\
    write F2 01;finish 4 5 6;byte;byte;ledger;copied;finish 4 5 6;wake;finish 7 8 9;byte;byte;byte;byte;\
    byte;copied;finish 7 8 9;close 8;ledger;open F2;byte;wake;byte;close 8;open F3;copied;byte;close 8;\
    write F4 25;open F2;byte;finish 1 2 3;byte;finish 4 5 6;copied;finish 4 5 6;byte;close 8;ledger";

/// Lists all walks, in a fixed order.
/// Each starts in the fresh state.
pub const WALKS: [&str; 8] = [
    FORCED,
    WOKEN,
    HELD,
    NOTHING_BEGUN,
    RUNNING_RULES,
    RESETS,
    BARRED,
    UNDER_BURSTS,
];

/// Spells a walk as lines.
/// The two words for bursts become the lines that they stand for.
pub fn spelled(walk: &str) -> Vec<&str> {
    let mut lines = Vec::new();
    for line in walk.split(';') {
        match line {
            "status" => lines.extend(["open F3", "byte", "close 8"]),
            "burst" => {
                lines.push("open F7");
                lines.extend(["byte"; 8]);
                lines.push("close 8");
            }
            other => lines.push(other),
        }
    }
    lines
}

/// Lists the lines of all walks.
/// They end in the fresh state.
pub fn lines() -> Vec<String> {
    let walks = WALKS.into_iter().flat_map(spelled);
    walks.chain(["fresh"]).map(String::from).collect()
}
