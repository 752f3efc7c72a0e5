//! FNV-1a.

pub struct Hash(u64);

impl Hash {
    pub fn new() -> Hash {
        Hash(0xcbf2_9ce4_8422_2325)
    }

    pub fn bytes(&mut self, bytes: &[u8]) {
        for &byte in bytes {
            self.0 = (self.0 ^ byte as u64).wrapping_mul(0x100_0000_01b3);
        }
    }

    pub fn words(&mut self, words: &[u32]) {
        words.iter().for_each(|word| self.bytes(&word.to_le_bytes()));
    }

    /// A string with its length.
    pub fn string(&mut self, string: &str) {
        self.words(&[string.len() as u32]);
        self.bytes(string.as_bytes());
    }

    pub fn written(&self) -> String {
        format!("{:016x}", self.0)
    }
}

pub fn of(bytes: &[u8]) -> String {
    let mut hash = Hash::new();
    hash.bytes(bytes);
    hash.written()
}
