//! From bytes to bits and back: a data byte has top bits 01, and its six low
//! bits are line bits, lowest first.

/// Line bits in one data byte.
pub const BITS_PER_BYTE: usize = 6;

/// Whether the byte has top bits 01.
pub fn is_data_byte(byte: u8) -> bool {
    (0x40..=0x7F).contains(&byte)
}

/// The six line bits of a data byte; none for any other byte.
pub fn bits_of_byte(byte: u8) -> Option<[bool; BITS_PER_BYTE]> {
    if !is_data_byte(byte) {
        return None;
    }
    let mut bits = [false; BITS_PER_BYTE];
    for (i, bit) in bits.iter_mut().enumerate() {
        *bit = (byte >> i) % 2 == 1;
    }
    Some(bits)
}

/// The data byte that carries these six line bits.
pub fn byte_of_bits(bits: [bool; BITS_PER_BYTE]) -> u8 {
    let mut byte = 0x40;
    for (i, bit) in bits.iter().enumerate() {
        if *bit {
            byte += 1 << i;
        }
    }
    byte
}

/// All line bits of a byte sequence; bytes that are not data carry none.
pub fn bits_of_bytes(bytes: &[u8]) -> Vec<bool> {
    let mut bits = Vec::new();
    for byte in bytes {
        if let Some(six) = bits_of_byte(*byte) {
            bits.extend(six);
        }
    }
    bits
}

/// The same stream with every line bit turned over.
pub fn turned_over(bytes: &[u8]) -> Vec<u8> {
    let turn = |byte: &u8| {
        if is_data_byte(*byte) {
            byte ^ 0x3F
        } else {
            *byte
        }
    };
    bytes.iter().map(turn).collect()
}
