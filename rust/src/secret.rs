//! Bytes that leave nothing in memory that is freed.

use std::ptr;
use std::sync::atomic::{compiler_fence, Ordering};

/// Bytes on the heap that are overwritten before they are freed.
#[derive(Clone, PartialEq, Eq)]
pub(crate) struct Secret(Box<[u8]>);

impl Secret {
    /// A copy of these bytes. It never grows, which would leave another copy behind.
    pub(crate) fn new(bytes: &[u8]) -> Secret {
        Secret(bytes.into())
    }

    pub(crate) fn as_bytes(&self) -> &[u8] {
        &self.0
    }
}

impl Drop for Secret {
    fn drop(&mut self) {
        for byte in &mut self.0 {
            // SAFETY: the pointer is that of a reference. A plain write to what is freed next may be left out.
            unsafe { ptr::write_volatile(byte, 0) };
        }
        // what frees the memory stays behind the writes
        compiler_fence(Ordering::SeqCst);
    }
}
