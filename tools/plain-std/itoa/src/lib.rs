//! What the programs use of the crate itoa: the decimal text of a number.

/// The most bytes of a text.
const MOST: usize = 40;

/// Room for a text.
pub struct Buffer([u8; MOST]);

/// A number that has a text.
pub trait Integer: Copy {
    /// Whether it is negative, and the number without its sign.
    fn parts(self) -> (bool, u128);
}

macro_rules! integers {
    ($($unsigned:ty, $signed:ty;)*) => {$(
        impl Integer for $unsigned {
            #[inline]
            fn parts(self) -> (bool, u128) {
                (false, self as u128)
            }
        }

        impl Integer for $signed {
            #[inline]
            fn parts(self) -> (bool, u128) {
                (self < 0, self.unsigned_abs() as u128)
            }
        }
    )*};
}

integers! { u8, i8; u16, i16; u32, i32; u64, i64; usize, isize; u128, i128; }

impl Buffer {
    /// Room.
    #[inline]
    pub fn new() -> Self {
        Buffer([0; MOST])
    }

    /// The text of a number.
    pub fn format<I: Integer>(&mut self, number: I) -> &str {
        let (negative, mut wide) = number.parts();
        let mut at = MOST;
        while wide > u128::from(u64::MAX) {
            at = self.put(at, (wide % 10) as u8);
            wide /= 10;
        }
        let mut left = wide as u64;
        loop {
            at = self.put(at, (left % 10) as u8);
            left /= 10;
            if left == 0 {
                break;
            }
        }
        if negative {
            at -= 1;
            self.0[at] = b'-';
        }
        std::str::from_utf8(&self.0[at..]).unwrap_or_default()
    }

    #[inline]
    fn put(&mut self, at: usize, digit: u8) -> usize {
        self.0[at - 1] = b'0' + digit;
        at - 1
    }
}

impl Default for Buffer {
    fn default() -> Self {
        Buffer::new()
    }
}
