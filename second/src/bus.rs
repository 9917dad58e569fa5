//! The byte sequences on I2C and SPI, written and read back.

use crate::numbers::Number;

pub const WRITABLE: [u8; 4] = [0xF2, 0xF4, 0xF5, 0xE0];
const MOST_PAIRS: usize = 16;

/// The device address and the number of bytes that decoding an I2C write gives.
#[derive(Clone, Copy, Debug, PartialEq, Eq)]
pub struct Decoded {
    pub address: u8,
    pub bytes: usize,
}

/// Says whether a device address is one of the two on I2C.
/// They are 0x76 and 0x77; any other gives 4.
fn check_device(address: u8) -> Result<(), Number> {
    match address {
        0x76 | 0x77 => Ok(()),
        _ => Err(Number::AddressNotAllowed),
    }
}

/// Says whether a register may be read.
/// Reads take 0x80 to 0xFF; any other gives 4.
fn check_read(register: u8) -> Result<(), Number> {
    match register {
        0x80..=0xFF => Ok(()),
        _ => Err(Number::AddressNotAllowed),
    }
}

/// Checks flat pairs: 15 for none, more than 16 or an odd number of bytes.
/// Then 4 where a register is not writable.
fn check_pairs(pairs: &[u8]) -> Result<(), Number> {
    let odd = pairs.len() % 2 == 1;
    if odd || pairs.is_empty() || pairs.len() / 2 > MOST_PAIRS {
        return Err(Number::PairCount);
    }
    let allowed = |pair: &[u8]| WRITABLE.contains(&pair[0]);
    if pairs.chunks_exact(2).all(allowed) {
        Ok(())
    } else {
        Err(Number::AddressNotAllowed)
    }
}

/// Writes the output to the start of the lent buffer, or gives 9 where it's too short.
/// Bytes past the output stay.
fn hand_over(output: &[u8], buffer: &mut [u8]) -> Result<usize, Number> {
    let space = buffer
        .get_mut(..output.len())
        .ok_or(Number::BufferTooShort)?;
    space.copy_from_slice(output);
    Ok(output.len())
}

/// Changes the register byte of each pair, and leaves the values.
/// SPI clears bit 7 on the way out and sets it on the way back.
fn with_registers(pairs: &[u8], change: fn(u8) -> u8) -> Vec<u8> {
    let pair = |two: &[u8]| [change(two[0]), two[1]];
    pairs.chunks_exact(2).flat_map(pair).collect()
}

/// Encodes an I2C write: the address doubled, then the pairs.
/// Checks 4 for the device address, 15, 4 for registers, 9.
pub fn i2c_write(address: u8, pairs: &[u8], buffer: &mut [u8]) -> Result<usize, Number> {
    check_device(address)?;
    check_pairs(pairs)?;
    let mut output = vec![address * 2];
    output.extend_from_slice(pairs);
    hand_over(&output, buffer)
}

/// Encodes an I2C read, both messages after each other.
/// They are the doubled address and register, then the doubled address plus one.
pub fn i2c_read(address: u8, register: u8, buffer: &mut [u8]) -> Result<usize, Number> {
    check_device(address)?;
    check_read(register)?;
    hand_over(&[address * 2, register, address * 2 + 1], buffer)
}

/// Decodes an I2C write into its pairs and device address.
/// Checks 16 for the shape, 15, 4, 9.
pub fn i2c_decode(bytes: &[u8], buffer: &mut [u8]) -> Result<Decoded, Number> {
    let (first, pairs) = bytes.split_first().ok_or(Number::WrongShape)?;
    let right_first = *first == 0xEC || *first == 0xEE;
    if !right_first || pairs.len() % 2 == 1 {
        return Err(Number::WrongShape);
    }
    check_pairs(pairs)?;
    let bytes = hand_over(pairs, buffer)?;
    Ok(Decoded {
        address: first / 2,
        bytes,
    })
}

/// Encodes an SPI write: each register with bit 7 clear, then its value.
/// Checks 15, 4 for registers, 9.
pub fn spi_write(pairs: &[u8], buffer: &mut [u8]) -> Result<usize, Number> {
    check_pairs(pairs)?;
    let output = with_registers(pairs, |register| register & 0x7F);
    hand_over(&output, buffer)
}

/// Encodes an SPI read: the register with bit 7 set.
/// Checks 4 for the register, 9.
pub fn spi_read(register: u8, buffer: &mut [u8]) -> Result<usize, Number> {
    check_read(register)?;
    hand_over(&[register | 0x80], buffer)
}

/// Decodes an SPI write into its pairs, with bit 7 set again.
/// Checks 16 for the shape, 15, 4, 9.
pub fn spi_decode(bytes: &[u8], buffer: &mut [u8]) -> Result<usize, Number> {
    let odd = bytes.len() % 2 == 1;
    let reading = bytes.chunks_exact(2).any(|pair| pair[0] & 0x80 != 0);
    if bytes.is_empty() || odd || reading {
        return Err(Number::WrongShape);
    }
    let pairs = with_registers(bytes, |register| register | 0x80);
    check_pairs(&pairs)?;
    hand_over(&pairs, buffer)
}
