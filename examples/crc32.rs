//! Replies the CRC-32 of the packet (the one of gzip and PNG) in eight hexadecimal digits.
#![no_std]
#![no_main]

#[path = "../guest/seuss.rs"]
mod seuss;

/// The polynomial of the CRC, its lowest bit that of the highest power.
const POLYNOMIAL: u32 = 0xedb8_8320;

/// The CRC of these bytes.
fn crc32(bytes: &[u8]) -> u32 {
    let mut rest = !0u32;
    for byte in bytes {
        rest ^= u32::from(*byte);
        for _ in 0..8 {
            rest = if rest & 1 == 1 { rest >> 1 ^ POLYNOMIAL } else { rest >> 1 };
        }
    }
    !rest
}

fn handle(packet: &[u8], reply: &mut [u8]) -> usize {
    let crc = crc32(packet);
    for (at, digit) in reply[..8].iter_mut().enumerate() {
        *digit = b"0123456789abcdef"[(crc >> (28 - 4 * at) & 15) as usize];
    }
    8
}

seuss::serve!(handle);
