//! Codes to which question 16 or 17 says no.

use super::random::Random;

/// A code to which question 16 says no.
pub fn unsplit_code(random: &mut Random) -> Vec<u8> {
    let none = 0xB9 + random.below(0x100 - 0xB9) as u8;
    let faults: [&[u8]; 16] = [
        &[0x8B, 0x00],
        &[0x00],
        &[0x73, 0, 0, 0, 1, 0, 0],
        &[none, 0x7A],
        &[0x00, none],
        &[0x71, 0, 0],
        &[0x7A, 0x60, 0],
        &[0x11, 0x7A],
        &[0x73, 0, 0, 0, 0, 0, 1, 0, 0],
        &[0x73, 0, 0, 0x80, 0, 0x7F, 0xFF, 0, 0],
        &[0x74, 0, 0, 0x80, 0, 0, 0, 0x7F, 0xFF, 0xFF, 0xFF, 0, 0],
        &[0x74, 0, 0, 0, 0, 0, 0, 0xFF, 0xFF, 0xFF, 0xFF],
        &[0x75, 0, 0, 0, 1, 0, 0],
        &[0x76, 0, 0, 0xFF, 0xFF, 0, 0, 0, 0, 0, 0],
        &[0x8E, 0, 0, 0],
        &[0x7A, 0x73],
    ];
    random.pick(&faults).to_vec()
}

/// A code to which question 17 says no, and 16 yes.
pub fn unlanded_code(random: &mut Random) -> Vec<u8> {
    let short = 0x60 + random.below(16) as u8;
    let wide = 0x98 + random.below(16) as u8;
    let faults: [&[u8]; 14] = [
        &[0x70, 0x01],
        &[0x70, 0x02],
        &[0x70, 0xFF],
        &[short, 0x03, 0x7A],
        &[short, 0x80, 0x7A],
        &[wide, 0, 0x01, 0x7A],
        &[wide, 0x80, 0, 0x7A],
        &[0x71, 0x7F, 0xFF, 0x7A],
        &[0xA8, 0, 0x03],
        &[0x11, 0, 0, 0xA8, 0xFF, 0xFE],
        &[0x73, 0, 1, 0, 0, 0, 0, 0, 9, 0x7A],
        &[0x74, 0, 13, 0, 0, 0, 0, 0, 0, 0, 0, 0, 12, 0x7A],
        &[0x75, 0, 9, 0, 1, 0, 9, 0, 8, 0x7A],
        &[0x76, 0, 11, 0, 1, 0, 0, 0, 11, 0xFF, 0xFF, 0x7A],
    ];
    random.pick(&faults).to_vec()
}
