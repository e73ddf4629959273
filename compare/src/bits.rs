//! Fields bit by bit, most significant first, through words of 64 bits.

/// The eight bytes from the first on as a number; zeros stand for bytes past the end.
#[inline]
pub fn first_word(bytes: &[u8]) -> u64 {
    match bytes.first_chunk() {
        Some(eight) => u64::from_be_bytes(*eight),
        None => bytes.iter().zip(0..8).fold(0, |word, (byte, at)| {
            word | u64::from(*byte) << (56 - 8 * at)
        }),
    }
}

/// The `width` bits, 1 to 57, from a position on.
#[inline]
pub fn bits_at(bytes: &[u8], position: usize, width: usize) -> u64 {
    first_word(&bytes[position / 8..]) << (position % 8) >> (64 - width)
}

/// Reads fields one after another.
pub struct BitReader<'a> {
    bytes: &'a [u8],
    position: usize,
}

impl<'a> BitReader<'a> {
    pub fn new(bytes: &'a [u8]) -> Self {
        BitReader { bytes, position: 0 }
    }

    /// The next `width` bits, 1 to 57, as a number.
    pub fn take(&mut self, width: usize) -> u64 {
        let number = bits_at(self.bytes, self.position, width);
        self.position += width;
        number
    }

    /// The next `width` bits as a two's complement number.
    pub fn take_signed(&mut self, width: usize) -> i64 {
        let unused = 64 - width;
        (self.take(width) << unused).cast_signed() >> unused
    }
}

/// Places fields one after another into lent bytes, which must have room for them.
pub struct BitWriter<'a> {
    bytes: &'a mut [u8],
    written: usize,
    /// The bits not yet written, the first on top, and how many more it takes.
    word: u64,
    free: usize,
}

impl<'a> BitWriter<'a> {
    pub fn new(bytes: &'a mut [u8]) -> Self {
        BitWriter {
            bytes,
            written: 0,
            word: 0,
            free: 64,
        }
    }

    /// Places the lowest `width` bits, 1 to 63, of the number.
    pub fn put(&mut self, number: u64, width: usize) {
        let number = number & (u64::MAX >> (64 - width));
        if width <= self.free {
            self.free -= width;
            self.word |= number << self.free;
        } else {
            let over = width - self.free;
            self.word |= number >> over;
            self.write(8);
            self.free = 64 - over;
            self.word = number << self.free;
        }
    }

    /// Writes what is left, zero bits filling the last byte; gives the bytes written in all.
    pub fn finish(mut self) -> usize {
        self.write((64 - self.free).div_ceil(8));
        self.written
    }

    fn write(&mut self, count: usize) {
        let end = self.written + count;
        self.bytes[self.written..end].copy_from_slice(&self.word.to_be_bytes()[..count]);
        self.written = end;
    }
}
