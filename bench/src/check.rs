//! The header check as an ordinary Rust program has it: a byte at a time by a table of 256 entries.

const POLYNOMIAL: u16 = 0x8408;

static TABLE: [u16; 256] = table();

const fn table() -> [u16; 256] {
    let mut entries = [0; 256];
    let mut byte = 0;
    while byte < 256 {
        let mut register = byte as u16;
        let mut bit = 0;
        while bit < 8 {
            register = if register & 1 == 1 { (register >> 1) ^ POLYNOMIAL } else { register >> 1 };
            bit += 1;
        }
        entries[byte] = register;
        byte += 1;
    }
    entries
}

#[inline]
pub fn by_table(bytes: &[u8]) -> u16 {
    bytes.iter().fold(0xFFFF, |register: u16, byte| (register >> 8) ^ TABLE[(register as u8 ^ byte) as usize])
}
