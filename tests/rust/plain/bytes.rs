//! Reading bytes from the front, and what buffers hold.

use crate::value::Uuid;

pub fn all_zero(bytes: &[u8]) -> bool {
    bytes.iter().fold(0, |all, byte| all | byte) == 0
}

/// Puts bytes in the front of a buffer and zeros after them (F24).
pub fn fill(buffer: &mut [u8], bytes: &[u8]) {
    let (front, rest) = buffer.split_at_mut(bytes.len());
    front.copy_from_slice(bytes);
    rest.fill(0);
}

/// Bytes of which the front is taken part by part; None where there are too few, or a part is not what it must be.
pub struct Reader<'a> {
    rest: &'a [u8],
}

impl<'a> Reader<'a> {
    pub fn new(bytes: &'a [u8]) -> Self {
        Reader { rest: bytes }
    }

    pub fn take(&mut self, length: usize) -> Option<&'a [u8]> {
        let (front, rest) = self.rest.split_at_checked(length)?;
        self.rest = rest;
        Some(front)
    }

    /// A reader of the next bytes.
    pub fn part(&mut self, length: usize) -> Option<Self> {
        self.take(length).map(Reader::new)
    }

    fn array<const N: usize>(&mut self) -> Option<[u8; N]> {
        self.take(N)?.try_into().ok()
    }

    pub fn byte(&mut self) -> Option<u8> {
        self.array::<1>().map(|[byte]| byte)
    }

    /// A number of one byte that is at most some number.
    pub fn at_most(&mut self, most: usize) -> Option<usize> {
        self.byte().map(usize::from).filter(|number| *number <= most)
    }

    pub fn flag(&mut self) -> Option<bool> {
        self.at_most(1).map(|number| number == 1)
    }

    pub fn u32(&mut self) -> Option<u32> {
        self.array().map(u32::from_be_bytes)
    }

    pub fn i64(&mut self) -> Option<i64> {
        self.array().map(i64::from_be_bytes)
    }

    /// An id of a row, which is not zero.
    pub fn id(&mut self) -> Option<Uuid> {
        self.array().filter(|id: &Uuid| !all_zero(id))
    }

    pub fn zeros(&mut self, length: usize) -> Option<()> {
        all_zero(self.take(length)?).then_some(())
    }

    /// Whether all that is left is zero.
    pub fn is_zero(&self) -> bool {
        all_zero(self.rest)
    }

    pub fn is_empty(&self) -> bool {
        self.rest.is_empty()
    }
}
