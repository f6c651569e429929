//! A stand-in for `nostdio`: a cursor over bytes, as far as decode.rs uses one.
//!
//! It also writes down where decode.rs seeks and how many dwords it reads there. The records that decode.rs gives back do not
//! say where an instruction begins, how long it is, or whether its length came from the next dword; these notes do.

use std::cell::RefCell;

/// A seek, and how many dwords were read after it.
#[derive(Clone, Copy, Debug)]
pub struct Visit {
    pub at: u64,
    pub dwords: usize,
}

thread_local! {
    static VISITS: RefCell<Vec<Visit>> = const { RefCell::new(Vec::new()) };
}

/// Forgets the visits of earlier chunks.
pub fn forget() {
    VISITS.with(|v| v.borrow_mut().clear());
}

/// Shows the visits since they were last forgotten.
pub fn with_visits<T>(f: impl FnOnce(&[Visit]) -> T) -> T {
    VISITS.with(|v| f(&v.borrow()))
}

/// A read past the end.
#[derive(Debug)]
pub struct OutOfBytes;

pub enum SeekFrom {
    Start(u64),
}

pub trait Seek {
    fn seek(&mut self, to: SeekFrom) -> Result<u64, OutOfBytes>;
}

pub trait ReadLe {
    fn read_u32_le(&mut self) -> Result<u32, OutOfBytes>;
}

/// A position in some bytes. A visit is noted when it is over: at the next seek, or when the cursor is dropped.
pub struct Cursor<T> {
    bytes: T,
    position: usize,
    visit: Option<Visit>,
}

impl<T> Cursor<T> {
    pub fn new(bytes: T) -> Self {
        Cursor { bytes, position: 0, visit: None }
    }

    fn note(&mut self) {
        if let Some(visit) = self.visit.take() {
            VISITS.with(|v| v.borrow_mut().push(visit));
        }
    }
}

impl<T> Drop for Cursor<T> {
    fn drop(&mut self) {
        self.note();
    }
}

impl<T> Seek for Cursor<T> {
    fn seek(&mut self, to: SeekFrom) -> Result<u64, OutOfBytes> {
        self.note();
        let SeekFrom::Start(at) = to;
        self.position = usize::try_from(at).map_err(|_| OutOfBytes)?;
        self.visit = Some(Visit { at, dwords: 0 });
        Ok(at)
    }
}

impl ReadLe for Cursor<&[u8]> {
    fn read_u32_le(&mut self) -> Result<u32, OutOfBytes> {
        let four = self.bytes.get(self.position..).and_then(|rest| rest.first_chunk::<4>()).ok_or(OutOfBytes)?;
        self.position += 4;
        if let Some(visit) = &mut self.visit {
            visit.dwords += 1;
        }
        Ok(u32::from_le_bytes(*four))
    }
}
