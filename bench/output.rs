//! Records 50 and 51, written into a lent output and read from it (document 01, "A run").

/// The bytes of record 50 and of record 51.
pub const VALUE: usize = 10;
pub const TRIGGER: usize = 6;

/// A lent output and the bytes written so far.
pub struct Output<'a> {
    bytes: &'a mut [u8],
    count: usize,
}

impl<'a> Output<'a> {
    pub fn new(bytes: &'a mut [u8]) -> Output<'a> {
        Output { bytes, count: 0 }
    }

    pub fn count(&self) -> usize {
        self.count
    }

    /// "each as record 50 (stream, position in 4 bytes, value word); a trigger stream's true value
    /// is followed by record 51 (stream, position)"
    pub fn put(&mut self, stream: usize, position: u32, value: u32, trigger: bool) {
        let [a, b, c, d] = position.to_le_bytes();
        let [e, f, g, h] = value.to_le_bytes();
        self.add([0x50, stream as u8, a, b, c, d, e, f, g, h]);
        if trigger && value != 0 {
            self.add([0x51, stream as u8, a, b, c, d]);
        }
    }

    fn add<const N: usize>(&mut self, record: [u8; N]) {
        self.bytes[self.count..self.count + N].copy_from_slice(&record);
        self.count += N;
    }
}
