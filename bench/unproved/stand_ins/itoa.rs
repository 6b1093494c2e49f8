//! Numbers in decimal digits, two at a time.

const LONGEST: usize = 40;
const PAIRS: &[u8; 200] = b"0001020304050607080910111213141516171819\
2021222324252627282930313233343536373839\
4041424344454647484950515253545556575859\
6061626364656667686970717273747576777879\
8081828384858687888990919293949596979899";

pub struct Buffer {
    bytes: [u8; LONGEST],
}

/// A number that is written at the end of so many bytes, which gives where it begins.
pub trait Integer: Sized {
    fn parts(self) -> (bool, u128);

    fn write(self, bytes: &mut [u8; LONGEST]) -> usize {
        let (below, wide) = self.parts();
        let mut at = write_digits(wide, bytes);
        if below {
            at -= 1;
            bytes[at] = b'-';
        }
        at
    }
}

macro_rules! unsigned {
    ($($name:ty),*) => {
        $(impl Integer for $name {
            fn parts(self) -> (bool, u128) {
                (false, self as u128)
            }
        })*
    };
}

unsigned!(u32, u64, u128);

impl Integer for i128 {
    fn parts(self) -> (bool, u128) {
        (self < 0, self.unsigned_abs())
    }
}

fn write_digits(mut wide: u128, bytes: &mut [u8; LONGEST]) -> usize {
    let mut at = LONGEST;
    while wide > u64::MAX as u128 {
        at -= 1;
        bytes[at] = b'0' + (wide % 10) as u8;
        wide /= 10;
    }
    let mut left = wide as u64;
    while left >= 100 {
        at -= 2;
        let pair = (left % 100) as usize * 2;
        bytes[at..at + 2].copy_from_slice(&PAIRS[pair..pair + 2]);
        left /= 100;
    }
    if left >= 10 {
        at -= 1;
        bytes[at] = b'0' + (left % 10) as u8;
        left /= 10;
    }
    at -= 1;
    bytes[at] = b'0' + left as u8;
    at
}

impl Buffer {
    pub fn new() -> Buffer {
        Buffer { bytes: [0; LONGEST] }
    }

    pub fn format<T: Integer>(&mut self, number: T) -> &str {
        let at = number.write(&mut self.bytes);
        unsafe { std::str::from_utf8_unchecked(&self.bytes[at..]) }
    }
}
