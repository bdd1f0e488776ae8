//! Random numbers from a seed: each case has a stream of its own, so that it can be run again alone.

pub struct Random(u64);

impl Random {
    /// The stream of one case of one kind.
    pub fn of_case(seed: u64, kind: &str, case: u64) -> Random {
        let mut random = Random(seed);
        for number in kind.bytes().map(u64::from).chain([case]) {
            random.0 = random.u64() ^ number;
        }
        random
    }

    /// SplitMix64.
    pub fn u64(&mut self) -> u64 {
        self.0 = self.0.wrapping_add(0x9E37_79B9_7F4A_7C15);
        let mut mixed = self.0;
        mixed = (mixed ^ (mixed >> 30)).wrapping_mul(0xBF58_476D_1CE4_E5B9);
        mixed = (mixed ^ (mixed >> 27)).wrapping_mul(0x94D0_49BB_1331_11EB);
        mixed ^ (mixed >> 31)
    }

    pub fn u32(&mut self) -> u32 {
        self.u64() as u32
    }

    pub fn byte(&mut self) -> u8 {
        self.u64() as u8
    }

    /// From 0 to `most`, both included.
    pub fn up_to(&mut self, most: u32) -> u32 {
        (self.u64() % (most as u64 + 1)) as u32
    }

    pub fn chance(&mut self, percent: u32) -> bool {
        self.up_to(99) < percent
    }

    pub fn pick<T: Copy>(&mut self, from: &[T]) -> T {
        from[self.up_to(from.len() as u32 - 1) as usize]
    }

    /// A flag as C may lend it: any byte but 0 is yes.
    pub fn flag(&mut self, yes: bool) -> u8 {
        if yes {
            self.pick(&[1, 1, 2, 128, 255])
        } else {
            0
        }
    }

    pub fn bytes(&mut self, length: usize) -> Vec<u8> {
        let mut bytes = vec![0; length];
        self.fill(&mut bytes);
        bytes
    }

    pub fn fill(&mut self, bytes: &mut [u8]) {
        for part in bytes.chunks_mut(8) {
            part.copy_from_slice(&self.u64().to_le_bytes()[..part.len()]);
        }
    }
}
