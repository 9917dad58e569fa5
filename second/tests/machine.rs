//! The events of the machine: the order of their checks and what they change.

mod common;

use common::check;

/// Writes: 3 before 4, 4 before 5; E0 is taken while copying.
/// Any other byte to E0 is ignored.
#[test]
fn checks_of_write() {
    check(
        "open F7 => 0
         write 00 00 => 3
         write E0 B6 => 3
         close 8 => 0 partial n=0 codes=0,0,0 before=0 buf=AAAAAAAAAAAAAAAA
         write F3 00 => 4
         write 74 27 => 4
         write F2 01 => 5
         write F4 00 => 5
         write F5 00 => 5
         write E0 B5 => 1
         write E0 B6 => 0
         copied => 0
         copied => 6
         write F2 01 => 0
         write E0 B6 => 0
         write F2 01 => 5",
    );
}

/// Registers as a burst reads them: F2 keeps three bits, F5 drops bit 1.
/// Control and status bytes are those of that moment; other addresses give 0.
#[test]
fn registers_read() {
    check(
        "open D0 => 0
         byte => 0 60
         byte => 0 00
         close 8 => 0 partial n=0 codes=0,0,0 before=0 buf=AAAAAAAAAAAAAAAA
         open F3 => 0
         byte => 0 01
         copied => 0
         close 8 => 0 partial n=0 codes=0,0,0 before=0 buf=AAAAAAAAAAAAAAAA
         write F2 FE => 0
         write F5 FF => 0
         write F4 57 => 0
         write F5 00 => 1
         copied => 0
         open F1 => 0
         byte => 0 00
         byte => 0 06
         byte => 0 08
         byte => 0 57
         byte => 0 FD
         byte => 0 00
         byte => 0 80
         finish 0 0 0 => 0
         close 8 => 0 partial n=0 codes=0,0,0 before=0 buf=AAAAAAAAAAAAAAAA
         write F5 00 => 1
         open F3 => 0
         byte => 0 00
         byte => 0 57
         wake => 0
         close 8 => 0 partial n=0 codes=0,0,0 before=0 buf=AAAAAAAAAAAAAAAA
         open E0 => 0
         byte => 0 00
         byte => 0 00",
    );
}

/// A forced conversion clears the mode bits at its finish, with either mode.
/// In between F4 reads as it was written.
#[test]
fn forced_clears_its_mode() {
    check(
        "copied => 0
         write F4 26 => 0
         open F4 => 0
         byte => 0 26
         copied => 0
         finish 1 2 3 => 0
         close 8 => 0 partial n=0 codes=0,0,0 before=0 buf=AAAAAAAAAAAAAAAA
         open F3 => 0
         byte => 0 00
         byte => 0 24
         close 8 => 0 partial n=0 codes=0,0,0 before=0 buf=AAAAAAAAAAAAAAAA
         wake => 6
         finish 1 2 3 => 6
         write F5 80 => 0",
    );
}

/// A held F4: the first is kept and reads as before, the second is ignored.
/// It takes effect after the phase has changed.
#[test]
fn a_held_f4() {
    check(
        "copied => 0
         write F4 25 => 0
         write F4 4B => 0
         write F4 00 => 1
         open F4 => 0
         byte => 0 25
         copied => 0
         finish 1 2 3 => 0
         close 8 => 0 partial n=0 codes=0,0,0 before=0 buf=AAAAAAAAAAAAAAAA
         open F3 => 0
         byte => 0 09
         byte => 0 4B
         close 8 => 0 partial n=0 codes=0,0,0 before=0 buf=AAAAAAAAAAAAAAAA
         copied => 0
         write F4 6F => 0
         finish 1 2 3 => 0
         open F3 => 0
         byte => 0 00
         byte => 0 6F
         close 8 => 0 partial n=0 codes=0,0,0 before=0 buf=AAAAAAAAAAAAAAAA
         wake => 0
         copied => 0
         write F4 24 => 0
         finish 1 2 3 => 0
         wake => 6
         write F5 00 => 0
         ledger => begun=3 delivered=0 overwritten=2 abandoned=0 standing=1 running=0 waiting=0 shown=1",
    );
}

/// Standby: mode 3 leaves it running but latches new codes, modes 1 and 2 begin, 0 sleeps.
/// The codes are those that a conversion began with.
#[test]
fn f4_in_standby() {
    check(
        "copied => 0
         write F4 27 => 0
         copied => 0
         finish 1 2 3 => 0
         write F2 02 => 0
         write F4 4B => 0
         ledger => begun=1 delivered=0 overwritten=0 abandoned=0 standing=1 running=0 waiting=0 shown=1
         wake => 0
         wake => 6
         copied => 0
         finish 1 2 3 => 0
         open F7 => 0
         byte => 0 00
         byte => 0 00
         byte => 0 20
         byte => 0 00
         byte => 0 00
         byte => 0 10
         byte => 0 00
         byte => 0 03
         close 8 => 0 whole n=2 codes=2,2,2 before=0 buf=0000200000100003
         write F4 26 => 0
         wake => 6
         copied => 0
         finish 1 2 3 => 0
         write F4 27 => 0
         copied => 0
         finish 1 2 3 => 0
         write F4 24 => 0
         wake => 6
         write F5 1C => 0
         ledger => begun=4 delivered=1 overwritten=2 abandoned=0 standing=1 running=0 waiting=0 shown=1",
    );
}

/// Finish: 6 before 7; counts of skipped channels are checked too, and not stored.
/// 20, 20 and 16 bits are the limits.
#[test]
fn checks_of_finish() {
    check(
        "finish 1048576 0 0 => 6
         copied => 0
         write F4 01 => 0
         copied => 0
         finish 1048576 0 0 => 7
         finish 0 1048576 0 => 7
         finish 0 0 65536 => 7
         finish 1048575 1048575 65535 => 0
         open F6 => 0
         byte => 0 00
         byte => 0 80
         byte => 0 00
         byte => 0 00
         byte => 0 80
         byte => 0 00
         byte => 0 00
         byte => 0 80
         byte => 0 00
         close 8 => 0 whole n=1 codes=0,0,0 before=0 buf=8000008000008000",
    );
}

/// Number 8 by write, wake and finish; nothing has changed where it is given.
/// Writes that begin nothing are taken still.
#[test]
fn all_begun() {
    check(
        "fresh 4294967295 => 0
         write F4 25 => 5
         copied => 0
         write F4 25 => 8
         write F4 27 => 8
         write F4 24 => 0
         write F2 01 => 0
         fresh 4294967294 => 0
         copied => 0
         write F4 27 => 0
         write F4 4B => 0
         copied => 0
         finish 1 2 3 => 0
         wake => 8
         write F4 25 => 8
         write F4 27 => 0
         write F4 00 => 0
         write F4 27 => 8
         ledger => begun=4294967295 delivered=4294967294 overwritten=0 abandoned=0 standing=1 running=0 waiting=0 shown=1
         fresh 4294967294 => 0
         copied => 0
         write F4 25 => 0
         write F4 27 => 0
         copied => 0
         finish 1048576 0 0 => 7
         finish 1 2 3 => 8
         write F4 00 => 1
         open F3 => 0
         byte => 0 08
         byte => 0 25
         power => 0
         ledger => begun=4294967295 delivered=4294967294 overwritten=0 abandoned=1 standing=0 running=0 waiting=0 shown=0",
    );
}
