//! A client of the library for C, owned. Code that is not safe is here, in `hints.rs`, which calls the two functions that read
//! packets, and in `secret.rs`.

use crate::sys;
use std::alloc::{handle_alloc_error, Layout};
use std::fmt;
use std::ptr::{self, NonNull};

/// A client of the library for C. Calls that may change it take a `&mut self`, and those that only look a `&self`.
pub(crate) struct Handle {
    client: NonNull<sys::Client>,
}

// SAFETY: what the pointer leads to is memory of `malloc`, which only this value owns, and which any thread may use and
// free. The library has no other state: `tools/build/library` refuses one with variables. A call that may change the client
// overlaps no other, since it takes a `&mut self`. This is an argument, and no proof: Rattle does not know a client as `Send`.
unsafe impl Send for Handle {}

// SAFETY: a `&Handle` makes no call but `yarrowdoor_look`. That only reads what the pointer leads to: the code that looks is
// proved over a session that it cannot write to. It takes no memory, and writes only to the answer, which its caller has to
// itself. So calls of several threads do not meet, and none that changes the client is made while a `&Handle` lives. This too
// is an argument: the contract of that export has the whole session for as long as the call lasts.
unsafe impl Sync for Handle {}

impl fmt::Debug for Handle {
    fn fmt(&self, f: &mut fmt::Formatter<'_>) -> fmt::Result {
        f.write_str("Handle")
    }
}

impl Handle {
    /// A new client, or why there is none.
    pub(crate) fn new(
        settings: &sys::Settings,
        user: &[u8],
        password: &[u8],
        seed: &[u8; 32],
    ) -> Result<Handle, u32> {
        let mut place = ptr::null_mut();
        // SAFETY: each pointer is that of a reference or a slice, so it is not null, and is valid for its length. `place`
        // is the only one that is written, and overlaps no other.
        let error = unsafe {
            sys::yarrowdoor_new(
                settings,
                user.as_ptr(),
                user.len(),
                password.as_ptr(),
                password.len(),
                seed.as_ptr(),
                seed.len(),
                &raw mut place,
            )
        };
        match NonNull::new(place) {
            Some(client) if error == 0 => Ok(Handle { client }),
            _ if error == sys::OUT_OF_MEMORY => out_of_memory(),
            _ => Err(error),
        }
    }

    /// Makes a call, with bytes in, and a buffer for bytes out. It writes to an answer that is all 0, and returns none: a
    /// copy of all its bytes, right after they were written in parts, would have to wait for them.
    ///
    /// # Panics
    ///
    /// The time of the request is not from 0 to 2^62 ns.
    pub(crate) fn call(
        &mut self,
        request: &sys::Request,
        bytes: &[u8],
        buffer: &mut [u8],
        answer: &mut sys::Answer,
    ) {
        // SAFETY: each pointer and its length are those of a slice, and the buffer is borrowed mutably.
        unsafe {
            self.call_at(
                request,
                bytes.as_ptr(),
                bytes.len(),
                buffer.as_mut_ptr(),
                buffer.len(),
                answer,
            );
        }
    }

    /// Makes the call that only counts its data, of which there are `len` bytes anywhere.
    ///
    /// # Panics
    ///
    /// The request is another one, or its time is not from 0 to 2^62 ns.
    pub(crate) fn call_counting(
        &mut self,
        request: &sys::Request,
        len: usize,
        buffer: &mut [u8],
        answer: &mut sys::Answer,
    ) {
        assert_eq!(request.kind, sys::CALL_SEND_HEAD);
        // SAFETY: the pointer and the length of the buffer are those of a slice, which is borrowed mutably. A request of this
        // kind reads nothing of its data, so there need be none at its pointer.
        unsafe {
            self.call_at(
                request,
                ptr::null(),
                len,
                buffer.as_mut_ptr(),
                buffer.len(),
                answer,
            );
        }
    }

    /// Makes a call that only looks: one for which the client is the same afterwards.
    pub(crate) fn look(&self, request: &sys::Request) -> sys::Answer {
        let mut answer = sys::Answer::default();
        // SAFETY: the client came from `yarrowdoor_new` and is freed only by `drop`. Calls that overlap this one look too, since
        // others take a `&mut self`. Each other pointer is that of a reference, and `answer` is borrowed mutably.
        unsafe { sys::yarrowdoor_look(self.client.as_ptr(), request, &raw mut answer) };
        answer
    }

    /// Makes a call.
    ///
    /// # Safety
    ///
    /// The `bytes_len` bytes at `bytes` may be read, unless the request only counts them. The `len` bytes at `buffer` may be
    /// written, are initialised, and overlap nothing else that is passed.
    unsafe fn call_at(
        &mut self,
        request: &sys::Request,
        bytes: *const u8,
        bytes_len: usize,
        buffer: *mut u8,
        len: usize,
        answer: &mut sys::Answer,
    ) {
        // SAFETY: the client came from `yarrowdoor_new` and is freed only by `drop`. This is the only call of it: `self` is
        // borrowed mutably, and the library calls nothing back. `bytes` and `buffer` are as the caller promises. Each other
        // pointer is that of a reference, so it is not null; `answer` is borrowed mutably, so it overlaps nothing.
        unsafe {
            sys::yarrowdoor_call(
                self.client.as_ptr(),
                request,
                bytes,
                bytes_len,
                buffer,
                len,
                answer,
            );
        }
        match answer.kind {
            sys::OUT_OF_MEMORY => out_of_memory(),
            sys::BAD_TIME => panic!("a time is from 0 to 2^62 nanoseconds"),
            _ => {}
        }
    }
}

impl Drop for Handle {
    fn drop(&mut self) {
        // SAFETY: the client came from `yarrowdoor_new`, and nothing uses it after its owner was dropped.
        unsafe { sys::yarrowdoor_free(self.client.as_ptr()) }
    }
}

/// A memory allocation of the library failed. It does not say of how many bytes.
fn out_of_memory() -> ! {
    handle_alloc_error(Layout::new::<u8>())
}

/// 32 bytes of the system's random numbers.
pub(crate) fn system_seed() -> [u8; 32] {
    extern "C" {
        // POSIX.1-2024: fills up to 256 bytes, or returns -1.
        fn getentropy(buffer: *mut u8, length: usize) -> std::ffi::c_int;
    }
    let mut seed = [0; 32];
    // SAFETY: the pointer is that of an array of this length, which nothing else borrows.
    let error = unsafe { getentropy(seed.as_mut_ptr(), seed.len()) };
    assert!(error == 0, "the system has no random numbers");
    seed
}
