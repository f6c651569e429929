//! A stand-in for encode.rs, which is not among the sources. It turns the re-encoding check of decode.rs off, as document 01
//! asks: what it gives is equal to whatever bytes it is compared with.

use super::ir::Program;

pub struct CheckIsOff;

impl PartialEq<&[u8]> for CheckIsOff {
    fn eq(&self, _: &&[u8]) -> bool {
        true
    }
}

/// decode.rs looks for the first byte that differs; it never comes to that.
impl std::ops::Deref for CheckIsOff {
    type Target = [u8];

    fn deref(&self) -> &[u8] {
        &[]
    }
}

pub fn encode(_: &Program) -> CheckIsOff {
    CheckIsOff
}
