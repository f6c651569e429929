//! A stand-in for `nostdio`, as far as decode.rs uses it: the oracle's without its notes, which would be counted too.

pub struct OutOfBytes;

pub enum SeekFrom {
    Start(u64),
}

pub trait Seek {
    fn seek(&mut self, to: SeekFrom) -> Result<u64, OutOfBytes>;
}

pub trait ReadLe {
    fn read_u32_le(&mut self) -> Result<u32, OutOfBytes>;
}

/// A position in some bytes.
pub struct Cursor<T> {
    bytes: T,
    position: usize,
}

impl<T> Cursor<T> {
    pub fn new(bytes: T) -> Self {
        Cursor { bytes, position: 0 }
    }
}

impl<T> Seek for Cursor<T> {
    fn seek(&mut self, to: SeekFrom) -> Result<u64, OutOfBytes> {
        let SeekFrom::Start(at) = to;
        self.position = usize::try_from(at).map_err(|_| OutOfBytes)?;
        Ok(at)
    }
}

impl ReadLe for Cursor<&[u8]> {
    fn read_u32_le(&mut self) -> Result<u32, OutOfBytes> {
        let four = self.bytes.get(self.position..).and_then(|rest| rest.first_chunk::<4>()).ok_or(OutOfBytes)?;
        self.position += 4;
        Ok(u32::from_le_bytes(*four))
    }
}
