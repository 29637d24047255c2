//! Bit runs in bytes, first bit highest, for the carriers that are not byte aligned.

/// Takes runs of bits off the front of bytes.
pub struct Reader<'a> {
    bytes: std::slice::Iter<'a, u8>,
    pending: u64,
    count: u32,
}

impl<'a> Reader<'a> {
    pub fn new(bytes: &'a [u8]) -> Self {
        Self {
            bytes: bytes.iter(),
            pending: 0,
            count: 0,
        }
    }

    /// The next `width` bits, at most 56; past the end the bits are zero.
    #[inline]
    pub fn take(&mut self, width: u32) -> u64 {
        while self.count < width {
            let byte = self.bytes.next().copied().unwrap_or(0);
            self.pending = self.pending << 8 | u64::from(byte);
            self.count += 8;
        }
        self.count -= width;
        let value = self.pending >> self.count;
        self.pending &= (1 << self.count) - 1;
        value
    }
}

/// Puts runs of bits into bytes from the start.
pub struct Writer<'a> {
    bytes: std::slice::IterMut<'a, u8>,
    pending: u64,
    count: u32,
}

impl<'a> Writer<'a> {
    /// A writer into `bytes`, which must hold all that will be put, padding included.
    pub fn new(bytes: &'a mut [u8]) -> Self {
        Self {
            bytes: bytes.iter_mut(),
            pending: 0,
            count: 0,
        }
    }

    /// Puts the `width` low bits of `value`, at most 56, with no bit above them set.
    #[inline]
    pub fn put(&mut self, value: u64, width: u32) {
        self.pending = self.pending << width | value;
        self.count += width;
        while self.count >= 8 {
            self.count -= 8;
            self.push((self.pending >> self.count) as u8);
            self.pending &= (1 << self.count) - 1;
        }
    }

    /// Fills the last byte with zero bits.
    pub fn finish(mut self) {
        if self.count > 0 {
            let last = (self.pending << (8 - self.count)) as u8;
            self.push(last);
        }
    }

    #[inline]
    fn push(&mut self, byte: u8) {
        if let Some(next) = self.bytes.next() {
            *next = byte;
        }
    }
}
