//! Reading fields of one, two and four bytes, the high byte first.

/// The least and greatest length of an AID.
pub const AID_LENGTHS: std::ops::RangeInclusive<usize> = 5..=16;

/// Reads fields one after the other; `None` when the bytes run out.
pub struct Reader<'a> {
    rest: &'a [u8],
}

impl<'a> Reader<'a> {
    pub fn new(bytes: &'a [u8]) -> Self {
        Reader { rest: bytes }
    }

    pub fn take(&mut self, count: usize) -> Option<&'a [u8]> {
        if count > self.rest.len() {
            return None;
        }
        let (part, rest) = self.rest.split_at(count);
        self.rest = rest;
        Some(part)
    }

    pub fn u1(&mut self) -> Option<u8> {
        Some(self.take(1)?[0])
    }

    pub fn u2(&mut self) -> Option<u16> {
        u2_at(self.take(2)?, 0)
    }

    /// A u1 length from 5 to 16 and that many bytes.
    pub fn aid(&mut self) -> Option<&'a [u8]> {
        let length = usize::from(self.u1()?);
        if AID_LENGTHS.contains(&length) {
            self.take(length)
        } else {
            None
        }
    }

    /// A u1 that is at most the limit given.
    pub fn count1(&mut self, limit: usize) -> Option<usize> {
        self.u1().map(usize::from).filter(|&count| count <= limit)
    }

    pub fn rest(&self) -> &'a [u8] {
        self.rest
    }
}

fn array_at<const N: usize>(bytes: &[u8], at: usize) -> Option<[u8; N]> {
    bytes.get(at..)?.get(..N)?.try_into().ok()
}

pub fn s1_at(bytes: &[u8], at: usize) -> Option<i8> {
    array_at(bytes, at).map(i8::from_be_bytes)
}

pub fn u2_at(bytes: &[u8], at: usize) -> Option<u16> {
    array_at(bytes, at).map(u16::from_be_bytes)
}

pub fn s2_at(bytes: &[u8], at: usize) -> Option<i16> {
    array_at(bytes, at).map(i16::from_be_bytes)
}

pub fn s4_at(bytes: &[u8], at: usize) -> Option<i32> {
    array_at(bytes, at).map(i32::from_be_bytes)
}
