//! Headers that more than one test takes.

use crate::large::zeros;

/// Bytes from hexadecimal digits; anything else only separates.
pub fn hex(text: &str) -> Vec<u8> {
    let digits: Vec<u8> = text
        .chars()
        .filter_map(|c| c.to_digit(16))
        .map(|digit| digit as u8)
        .collect();
    digits.chunks(2).map(|two| two[0] << 4 | two[1]).collect()
}

/// Header H of document 01, with a context section of choice.
pub fn header_h_with(section: &str) -> Vec<u8> {
    let mut bytes = hex("01 80 01 78");
    bytes.extend(0..16u8);
    bytes.extend(hex(section));
    bytes.extend(hex("00 01 00 02 70 31 00 01 61 00 03 AA BB CC"));
    bytes.extend(hex("02 00 00 00 00 0C 00 00 10 00"));
    bytes
}

/// Header H of document 01, 58 bytes.
pub fn header_h() -> Vec<u8> {
    header_h_with("00 0C 00 01 00 04 6C 61 6E 67 00 02 63 79")
}

/// Message, start, number and position: the refusals of H, cut or with
/// another start, that document 01 names, and those at the greatest start.
pub fn header_h_refused() -> [(Vec<u8>, u64, (u32, u64)); 6] {
    let h = header_h();
    [
        (h[..57].to_vec(), 0, (2, 58)),
        (h[..22].to_vec(), 0, (2, 34)),
        (h.clone(), 70, (2, 71)),
        (Vec::new(), 0, (2, 1)),
        (h.clone(), 4_294_967_295, (2, 4_294_967_296)),
        (h, 4_294_967_296, (1, 0)),
    ]
}

/// A message one byte longer than the greatest length; H ends at that length.
pub fn header_h_at_four_gibibytes() -> Vec<u8> {
    let greatest = u32::MAX as usize;
    let mut message = zeros(greatest + 1);
    let h = header_h();
    message[greatest - h.len()..greatest].copy_from_slice(&h);
    message
}

/// A header of version 2 with a context section of choice and two equal keys.
pub fn header_v2_with(section: &str) -> Vec<u8> {
    let mut bytes = hex("02 05 78");
    bytes.extend(32..64u8);
    bytes.extend(hex(section));
    bytes.extend(hex("00 02 00 01 70 00 00 00 01 AA 00 01 70 00 00 00 01 AA"));
    bytes.extend(hex("01 00 00 00 00"));
    bytes.extend(64..96u8);
    bytes
}

/// A header of version 2 with two pairs, whose keys begin one another.
pub fn header_v2() -> Vec<u8> {
    header_v2_with("00 10 00 02 00 01 61 00 01 62 00 02 61 62 00 02 C3 A9")
}

/// The headers above, and both forms of an empty context, in both versions.
pub fn samples() -> [Vec<u8>; 6] {
    [
        header_h(),
        header_v2(),
        header_h_with("00 00"),
        header_v2_with("00 00"),
        header_h_with("00 02 00 00"),
        header_v2_with("00 02 00 00"),
    ]
}
