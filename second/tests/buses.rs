//! Bus bytes: the order of the checks, and what is written to a lent buffer.

mod common;

use common::check;

/// I2C writing: 4 for the device, 15, 4 for registers, 9.
/// Bytes past the output stay; nothing is written where refused.
#[test]
fn i2c_writing() {
    let seventeen = "F400".repeat(17);
    let sixteen = "F400".repeat(16);
    let wrong = format!("{}F300", "F400".repeat(16));
    check(&format!(
        "i2c write 75 - 0 => 4 buf=-
         i2c write EC F427 3 => 4 buf=AAAAAA
         i2c write 76 - 3 => 15 buf=AAAAAA
         i2c write 76 F4 3 => 15 buf=AAAAAA
         i2c write 76 00270 3 => ? odd hex
         i2c write 76 F42700 3 => 15 buf=AAAAAA
         i2c write 76 {seventeen} 0 => 15 buf=-
         i2c write 76 {wrong} 0 => 15 buf=-
         i2c write 76 {sixteen} 32 => 9 buf={}
         i2c write 77 {sixteen} 34 => 0 n=33 buf=EE{sixteen}AA
         i2c write 76 F427F300 0 => 4 buf=-
         i2c write 76 7427 3 => 4 buf=AAAAAA
         i2c write 76 F427 2 => 9 buf=AAAA
         i2c write 76 E0B6F201F501F400 9 => 0 n=9 buf=ECE0B6F201F501F400",
        "AA".repeat(32),
    ));
}

/// I2C decoding: 16, 15, 4, 9.
/// An address alone is a write of no pair.
#[test]
fn i2c_decoding() {
    let seventeen = "F400".repeat(17);
    check(&format!(
        "i2c decode - 2 => 16 buf=AAAA
         i2c decode ED 2 => 16 buf=AAAA
         i2c decode EDF427 2 => 16 buf=AAAA
         i2c decode 76F427 2 => 16 buf=AAAA
         i2c decode ECF4 0 => 16 buf=-
         i2c decode EC 0 => 15 buf=-
         i2c decode EE{seventeen} 256 => 15 buf={}
         i2c decode ECF300 0 => 4 buf=-
         i2c decode EC7427 2 => 4 buf=AAAA
         i2c decode ECF427 1 => 9 buf=AA
         i2c decode ECF427 3 => 0 addr=76 n=2 buf=F427AA
         i2c decode EEF427F2FF 4 => 0 addr=77 n=4 buf=F427F2FF",
        "AA".repeat(256),
    ));
}

/// Reads on both buses: 4 for the device, 4 below 0x80, 9.
/// An I2C read is both messages after each other.
#[test]
fn reads() {
    check(
        "i2c read 75 F7 3 => 4 buf=AAAAAA
         i2c read 76 7F 3 => 4 buf=AAAAAA
         i2c read 76 7F 0 => 4 buf=-
         i2c read 76 F7 2 => 9 buf=AAAA
         i2c read 76 F7 3 => 0 n=3 buf=ECF7ED
         i2c read 77 80 5 => 0 n=3 buf=EE80EFAAAA
         spi read 77 1 => 4 buf=AA
         spi read F7 0 => 9 buf=-
         spi read 80 1 => 0 n=1 buf=80
         spi read FF 3 => 0 n=1 buf=FFAAAA",
    );
}

/// SPI writing and decoding: a set bit 7 anywhere is a wrong shape, before 15.
/// Decoding sets it again.
#[test]
fn spi_writing_and_decoding() {
    let many = "7400".repeat(17);
    check(&format!(
        "spi write - 0 => 15 buf=-
         spi write F42 2 => ? odd hex
         spi write F427F2 2 => 15 buf=AAAA
         spi write 7427 2 => 4 buf=AAAA
         spi write F427 1 => 9 buf=AA
         spi write E0B6F5FF 5 => 0 n=4 buf=60B675FFAA
         spi decode - 0 => 16 buf=-
         spi decode 74 2 => 16 buf=AAAA
         spi decode F427 2 => 16 buf=AAAA
         spi decode {many} 2 => 15 buf=AAAA
         spi decode {many}F400 2 => 16 buf=AAAA
         spi decode 7300 0 => 4 buf=-
         spi decode 7427 1 => 9 buf=AA
         spi decode 7427E0B6 4 => 16 buf=AAAAAAAA
         spi decode 7427 4 => 0 n=2 buf=F427AAAA
         spi decode 60B67207 4 => 0 n=4 buf=E0B6F207"
    ));
}
