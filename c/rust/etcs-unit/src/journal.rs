//! The records of a journal in memory.
use etcs_unit_sys as sys;

use crate::{check, Refused};

pub use sys::etcs_record as Record;

/// The records of a journal, the oldest first.
pub struct Journal<'a> {
    image: &'a [u8],
    at: sys::etcs_journal,
}

impl Journal<'_> {
    pub fn open(image: &[u8]) -> Result<Journal<'_>, Refused> {
        let mut at = sys::etcs_journal::default();
        // SAFETY: the image is good for its length.
        check(unsafe { sys::etcs_journal_open_(image.as_ptr(), image.len() as u64, sys::ETCS_UNIT_ABI, &mut at) })?;
        Ok(Journal { image, at })
    }
}

impl Iterator for Journal<'_> {
    type Item = Result<Record, Refused>;

    fn next(&mut self) -> Option<Result<Record, Refused>> {
        let mut record = Record::default();
        // SAFETY: as above.
        match unsafe { sys::etcs_journal_next_(self.image.as_ptr(), self.image.len() as u64, &mut self.at, &mut record) } {
            sys::ETCS_UNIT_END => None,
            status => Some(check(status).map(|()| record)),
        }
    }
}
