//! Random numbers from a seed (splitmix64).

/// A field of a struct.
pub trait Number {
    fn get(&self) -> u64;
    /// Sets it to the low bits of `number`.
    fn set(&mut self, number: u64);
    fn width(&self) -> u32;
}

macro_rules! numbers {
    ($($type:ty)*) => {$(
        impl Number for $type {
            fn get(&self) -> u64 {
                *self as u64
            }

            fn set(&mut self, number: u64) {
                *self = number as $type;
            }

            fn width(&self) -> u32 {
                <$type>::BITS
            }
        }
    )*};
}

numbers!(u8 i8 u16 u32 u64 usize);

/// Bits after which some field's range ends, and the widths of the types.
const ENDS: [u32; 15] = [1, 2, 3, 4, 5, 6, 7, 8, 11, 16, 28, 32, 36, 37, 63];

pub struct Random(u64);

impl Random {
    pub fn new(seed: u64) -> Self {
        Self(seed)
    }

    pub fn number(&mut self) -> u64 {
        self.0 = self.0.wrapping_add(0x9E37_79B9_7F4A_7C15);
        let mut z = self.0;
        z = (z ^ z >> 30).wrapping_mul(0xBF58_476D_1CE4_E5B9);
        z = (z ^ z >> 27).wrapping_mul(0x94D0_49BB_1331_11EB);
        z ^ z >> 31
    }

    /// A number below `limit`.
    pub fn below(&mut self, limit: u64) -> u64 {
        self.number() % limit
    }

    /// A number below `limit`, for indices and lengths.
    pub fn index(&mut self, limit: usize) -> usize {
        self.below(limit as u64) as usize
    }

    /// A number of so many bits, often at either end of its range.
    pub fn bits(&mut self, width: u32) -> u64 {
        let most = (1 << width) - 1;
        match self.below(8) {
            0 => 0,
            1 => most,
            _ => self.number() & most,
        }
    }

    /// A number of at most eight bits, often at either end of its range.
    pub fn byte(&mut self, width: u32) -> u8 {
        self.bits(width) as u8
    }

    /// A number of at most sixteen bits, often at either end of its range.
    pub fn short(&mut self, width: u32) -> u16 {
        self.bits(width) as u16
    }

    /// A continuity index of a message.
    pub fn ci(&mut self) -> u8 {
        1 + self.below(6) as u8
    }

    /// A local time offset in its range.
    pub fn lto(&mut self) -> i8 {
        self.below(63) as i8 - 31
    }

    /// True once in `n` times.
    pub fn once_in(&mut self, n: u64) -> bool {
        self.below(n) == 0
    }

    pub fn pick<T: Copy>(&mut self, from: &[T]) -> T {
        from[self.index(from.len())]
    }

    /// A number that is out of most ranges, or near the end of one, for a field of this width.
    pub fn odd(&mut self, was: u64, width: u32) -> u64 {
        let ends = ENDS.partition_point(|&end| end < width);
        let end = 1 << self.pick(&ENDS[..ends]);
        match self.below(7) {
            0 => was.wrapping_add(1),
            1 => was.wrapping_sub(1),
            2 => was.wrapping_add(end),
            3 => end,
            4 => self.below(40),
            5 => u64::MAX,
            _ => self.number(),
        }
    }

    /// Sets one of these fields to an odd number.
    pub fn damage(&mut self, mut fields: Vec<&mut dyn Number>) {
        let at = self.index(fields.len());
        let field = &mut fields[at];
        field.set(self.odd(field.get(), field.width()));
    }

    /// So many bytes mostly, else fewer or more; at most two more.
    pub fn room(&mut self, bytes: usize) -> usize {
        if self.once_in(12) {
            self.index(bytes + 3)
        } else {
            bytes
        }
    }
}
