// The CRC-32 of zlib and PNG: reflected polynomial 0xEDB88320, initial and final complement.

/// The sum of these bytes.
pub fn crc32(bytes: &[u8]) -> u32 {
    let table = table();
    let sum = bytes.iter().fold(!0u32, |sum, byte| (sum >> 8) ^ table[((sum ^ u32::from(*byte)) & 0xFF) as usize]);
    !sum
}

fn table() -> [u32; 256] {
    let mut table = [0u32; 256];
    for (i, entry) in table.iter_mut().enumerate() {
        let mut sum = i as u32;
        for _ in 0..8 {
            sum = if sum & 1 == 1 { (sum >> 1) ^ 0xEDB8_8320 } else { sum >> 1 };
        }
        *entry = sum;
    }
    table
}
