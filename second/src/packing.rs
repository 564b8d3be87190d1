//! Document 01, house packing: bit n sits in byte n / 8, the first of eight bits weighing 128.

/// House packing: the bits of packed bytes, in order.
pub fn unpack(bytes: &[u8]) -> Vec<bool> {
    bytes
        .iter()
        .flat_map(|byte| (0..8).map(move |n| byte & (128 >> n) != 0))
        .collect()
}

/// House packing: bits to bytes; a last byte that is not full ends in zeros.
pub fn pack(bits: &[bool]) -> Vec<u8> {
    bits.chunks(8)
        .map(|eight| {
            let mut byte = 0;
            for (n, &bit) in eight.iter().enumerate() {
                if bit {
                    byte |= 128 >> n;
                }
            }
            byte
        })
        .collect()
}

/// House packing: whether bit n is a one.
pub fn is_one(bytes: &[u8], n: usize) -> bool {
    bytes[n / 8] & (128 >> (n % 8)) != 0
}

/// House packing: turns bit n over.
pub fn flip(bytes: &mut [u8], n: usize) {
    bytes[n / 8] ^= 128 >> (n % 8);
}
