//! Stands for the toolchain's `itoa`: integers as text.

#![deny(unsafe_code)]

/// The longest text of an `i128`: a sign and 39 digits.
const LONGEST: usize = 40;

/// An integer that [`Buffer::format`] writes.
pub trait Integer: Copy {
    /// Whether it is below 0, and its size.
    fn parts(self) -> (bool, u128);
}

macro_rules! integers {
    ($($unsigned:ty, $signed:ty;)*) => {$(
        impl Integer for $unsigned {
            fn parts(self) -> (bool, u128) {
                (false, self as u128)
            }
        }
        impl Integer for $signed {
            fn parts(self) -> (bool, u128) {
                (self < 0, self.unsigned_abs() as u128)
            }
        }
    )*};
}

integers! { u8, i8; u16, i16; u32, i32; u64, i64; usize, isize; }

impl Integer for u128 {
    fn parts(self) -> (bool, u128) {
        (false, self)
    }
}

impl Integer for i128 {
    fn parts(self) -> (bool, u128) {
        (self < 0, self.unsigned_abs())
    }
}

/// Room for the text of one integer.
#[derive(Clone, Copy, Debug)]
pub struct Buffer {
    bytes: [u8; LONGEST],
}

impl Default for Buffer {
    fn default() -> Buffer {
        Buffer::new()
    }
}

impl Buffer {
    pub const fn new() -> Buffer {
        Buffer { bytes: [0; LONGEST] }
    }

    /// The integer in decimal digits, with a minus before it where it is below 0: what `to_string` gives.
    #[expect(unsafe_code, reason = "a look at each byte again takes a third of the time")]
    pub fn format<I: Integer>(&mut self, n: I) -> &str {
        let (is_negative, size) = n.parts();
        let mut at = self.put_digits(size);
        if is_negative {
            at -= 1;
            self.bytes[at] = b'-';
        }
        // SAFETY: `put_digits` has written a digit to each place from its result on, and the place before has a minus.
        unsafe { std::str::from_utf8_unchecked(&self.bytes[at..]) }
    }

    /// Writes the digits to the end of the buffer, and says where they begin. Most numbers fit a `u64`, whose division is
    /// fast, and there two digits are found by one.
    fn put_digits(&mut self, size: u128) -> usize {
        let (mut high, mut at) = (size, LONGEST);
        while high > u128::from(u64::MAX) {
            at -= 1;
            self.bytes[at] = b'0' + (high % 10) as u8;
            high /= 10;
        }
        let mut low = high as u64;
        while low >= 100 {
            at -= 2;
            self.bytes[at..at + 2].copy_from_slice(&PAIRS[(low % 100) as usize]);
            low /= 100;
        }
        let [tens, ones] = PAIRS[low as usize];
        at -= 1;
        self.bytes[at] = ones;
        if low >= 10 {
            at -= 1;
            self.bytes[at] = tens;
        }
        at
    }
}

/// The two digits of each number below 100.
const PAIRS: [[u8; 2]; 100] = {
    let mut pairs = [[b'0'; 2]; 100];
    let mut n = 0;
    while n < 100 {
        pairs[n] = [b'0' + (n / 10) as u8, b'0' + (n % 10) as u8];
        n += 1;
    }
    pairs
};

#[cfg(test)]
mod tests {
    use super::Buffer;

    #[test]
    fn gives_what_to_string_gives() {
        for n in [0, 1, -1, 9, 10, i64::MIN, i64::MAX, 1_000_000_007, -99] {
            assert_eq!(Buffer::new().format(n), n.to_string());
            assert_eq!(Buffer::new().format(n as u64), (n as u64).to_string());
            assert_eq!(Buffer::new().format(i128::from(n) * 1_000_000_000_000), (i128::from(n) * 1_000_000_000_000).to_string());
        }
        for n in 0..1100u64 {
            assert_eq!(Buffer::new().format(n), n.to_string());
        }
        for n in [i128::MIN, i128::MAX, -1, i128::from(u64::MAX) + 1] {
            assert_eq!(Buffer::new().format(n), n.to_string());
        }
        assert_eq!(Buffer::new().format(u128::MAX), u128::MAX.to_string());
    }
}
