//! Bursts: their checks, when they are whole, and what happens under them.

mod common;

use common::check;

/// Bursts: open checks 3 before 4, byte 6 and 4, close 6 before 2.
/// A close refused for its buffer leaves the burst open.
#[test]
fn checks_of_bursts() {
    check(
        "byte => 6
         close 7 => 6 buf=AAAAAAAAAAAAAA
         open 7F => 4
         open FF => 0
         open 00 => 3
         byte => 0 00
         byte => 4
         byte => 4
         close 0 => 2 buf=-
         close 9 => 2 buf=AAAAAAAAAAAAAAAAAA
         close 8 => 0 partial n=0 codes=0,0,0 before=0 buf=AAAAAAAAAAAAAAAA
         close 8 => 6 buf=AAAAAAAAAAAAAAAA",
    );
}

/// Opened at F8 a burst can't be whole; read on to FF and refused past it, it is.
/// With nothing shown a whole close gives number 0 and the fresh bytes.
#[test]
fn whole_bursts() {
    let rest = "byte => 0 00\nbyte => 0 00\nbyte => 0 80\nbyte => 0 00\nbyte => 0 00\nbyte => 0 80\nbyte => 0 00\n";
    let whole = "close 8 => 0 whole n=0 codes=0,0,0 before=0 buf=8000008000008000";
    let partial = "close 8 => 0 partial n=0 codes=0,0,0 before=0 buf=AAAAAAAAAAAAAAAA";
    check(&format!(
        "open F8 => 0
         {rest}
         byte => 0 00
         byte => 4
         {partial}
         open F7 => 0
         byte => 0 80
         {rest}
         byte => 0 00
         byte => 4
         {whole}
         open F6 => 0
         byte => 0 00
         byte => 0 80
         {rest}
         {whole}"
    ));
}

/// Finishes under a burst: the second replaces the waiting one, a power event abandons all.
/// The state is fresh after it, and a held F4 is gone.
#[test]
fn waiting_and_power() {
    check(
        "copied => 0
         write F4 27 => 0
         copied => 0
         finish 1 2 3 => 0
         open F7 => 0
         wake => 0
         copied => 0
         finish 4 5 6 => 0
         ledger => begun=2 delivered=0 overwritten=0 abandoned=0 standing=2 running=0 waiting=1 shown=1
         wake => 0
         copied => 0
         finish 7 8 9 => 0
         ledger => begun=3 delivered=0 overwritten=1 abandoned=0 standing=2 running=0 waiting=1 shown=1
         wake => 0
         ledger => begun=4 delivered=0 overwritten=1 abandoned=0 standing=3 running=1 waiting=1 shown=1
         power => 0
         ledger => begun=4 delivered=0 overwritten=1 abandoned=3 standing=0 running=0 waiting=0 shown=0
         byte => 6
         copied => 0
         write F4 25 => 0
         write F4 25 => 0
         write E0 B6 => 0
         copied => 0
         write F4 25 => 0
         copied => 0
         finish 1 2 3 => 0
         finish 1 2 3 => 6
         power => 0
         power => 0
         ledger => begun=6 delivered=0 overwritten=1 abandoned=5 standing=0 running=0 waiting=0 shown=0",
    );
}
