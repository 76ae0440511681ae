//! What meta.rs and meta2.rs use of the project's codec: little-endian numbers and bytes, one after another.

/// The bytes end too soon.
#[derive(Debug)]
pub struct CodecError;

pub struct Reader<'a> {
    rest: &'a [u8],
}

impl<'a> Reader<'a> {
    pub fn new(bytes: &'a [u8]) -> Self {
        Self { rest: bytes }
    }

    pub fn bytes(&mut self, n: usize) -> Result<&'a [u8], CodecError> {
        let (front, rest) = self.rest.split_at_checked(n).ok_or(CodecError)?;
        self.rest = rest;
        Ok(front)
    }

    pub fn array<const N: usize>(&mut self) -> Result<[u8; N], CodecError> {
        let mut a = [0; N];
        a.copy_from_slice(self.bytes(N)?);
        Ok(a)
    }

    pub fn u8(&mut self) -> Result<u8, CodecError> {
        self.array().map(u8::from_le_bytes)
    }

    pub fn u16(&mut self) -> Result<u16, CodecError> {
        self.array().map(u16::from_le_bytes)
    }

    pub fn u32(&mut self) -> Result<u32, CodecError> {
        self.array().map(u32::from_le_bytes)
    }

    pub fn u64(&mut self) -> Result<u64, CodecError> {
        self.array().map(u64::from_le_bytes)
    }
}

pub struct Writer<'a> {
    out: &'a mut [u8],
    at: usize,
}

impl<'a> Writer<'a> {
    pub fn new(out: &'a mut [u8]) -> Self {
        Self { out, at: 0 }
    }

    pub fn position(&self) -> usize {
        self.at
    }

    pub fn bytes(&mut self, bytes: &[u8]) -> Result<(), CodecError> {
        let end = self.at + bytes.len();
        let place = self.out.get_mut(self.at..end).ok_or(CodecError)?;
        place.copy_from_slice(bytes);
        self.at = end;
        Ok(())
    }

    pub fn zeros(&mut self, n: usize) -> Result<(), CodecError> {
        (0..n).try_for_each(|_| self.u8(0))
    }

    pub fn u8(&mut self, v: u8) -> Result<(), CodecError> {
        self.bytes(&v.to_le_bytes())
    }

    pub fn u16(&mut self, v: u16) -> Result<(), CodecError> {
        self.bytes(&v.to_le_bytes())
    }

    pub fn u32(&mut self, v: u32) -> Result<(), CodecError> {
        self.bytes(&v.to_le_bytes())
    }

    pub fn u64(&mut self, v: u64) -> Result<(), CodecError> {
        self.bytes(&v.to_le_bytes())
    }
}
