//! Stand-in of siphasher: SipHash with one round for a word and three at the end, as names.rs looks names up by it.
pub mod sip {
    pub struct SipHasher13 {
        state: [u64; 4],
        word: u64,
        length: u64,
    }

    fn round(v: &mut [u64; 4]) {
        v[0] = v[0].wrapping_add(v[1]);
        v[1] = v[1].rotate_left(13) ^ v[0];
        v[0] = v[0].rotate_left(32);
        v[2] = v[2].wrapping_add(v[3]);
        v[3] = v[3].rotate_left(16) ^ v[2];
        v[0] = v[0].wrapping_add(v[3]);
        v[3] = v[3].rotate_left(21) ^ v[0];
        v[2] = v[2].wrapping_add(v[1]);
        v[1] = v[1].rotate_left(17) ^ v[2];
        v[2] = v[2].rotate_left(32);
    }

    fn take(v: &mut [u64; 4], word: u64) {
        v[3] ^= word;
        round(v);
        v[0] ^= word;
    }

    impl SipHasher13 {
        pub fn new_with_keys(k0: u64, k1: u64) -> SipHasher13 {
            let state =
                [k0 ^ 0x736f_6d65_7073_6575, k1 ^ 0x646f_7261_6e64_6f6d, k0 ^ 0x6c79_6765_6e65_7261, k1 ^ 0x7465_6462_7974_6573];
            SipHasher13 { state, word: 0, length: 0 }
        }
    }

    impl std::hash::Hasher for SipHasher13 {
        fn write(&mut self, bytes: &[u8]) {
            for &byte in bytes {
                self.word |= (byte as u64) << (8 * (self.length % 8));
                self.length += 1;
                if self.length % 8 == 0 {
                    take(&mut self.state, self.word);
                    self.word = 0;
                }
            }
        }

        fn finish(&self) -> u64 {
            let mut v = self.state;
            take(&mut v, self.word | self.length << 56);
            v[2] ^= 0xff;
            (0..3).for_each(|_| round(&mut v));
            v[0] ^ v[1] ^ v[2] ^ v[3]
        }
    }
}
