//! No password stays in memory that the package gives back.
#![expect(unsafe_code, reason = "a heap that looks at what is freed")]

use std::alloc::{GlobalAlloc, Layout, System};
use std::hint::black_box;
use std::slice;
use std::sync::atomic::{AtomicUsize, Ordering::SeqCst};
use yarrowdoor::api::TurnConfig;
use yarrowdoor::prelude::*;
use yarrowdoor::stun::Instant;
use yarrowdoor::types::TurnCredentials;
use yarrowdoor::udp::TurnClientUdp;

const PASSWORD: &[u8] = b"a password that stands nowhere else";

static LOOKED_AT: AtomicUsize = AtomicUsize::new(0);
static WITH_PASSWORD: AtomicUsize = AtomicUsize::new(0);

/// The system's heap, which looks at what is given back.
struct Looking;

#[global_allocator]
static HEAP: Looking = Looking;

// SAFETY: each call is handed on to the system's heap. A block is read before it is freed.
unsafe impl GlobalAlloc for Looking {
    unsafe fn alloc(&self, layout: Layout) -> *mut u8 {
        // what was never written is no copy, and may be read
        unsafe { System.alloc_zeroed(layout) }
    }

    unsafe fn dealloc(&self, block: *mut u8, layout: Layout) {
        let bytes = unsafe { slice::from_raw_parts(block, layout.size()) };
        LOOKED_AT.fetch_add(1, SeqCst);
        if bytes.windows(PASSWORD.len()).any(|part| part == PASSWORD) {
            WITH_PASSWORD.fetch_add(1, SeqCst);
        }
        unsafe { System.dealloc(block, layout) };
    }
}

fn use_a_client() {
    let credentials = TurnCredentials::new("user", PASSWORD);
    let config = TurnConfig::new(credentials.clone());
    assert_eq!(config.credentials(), &credentials);
    black_box(format!("{config:?}"));
    let (local, remote) = (
        "10.0.0.1:4000".parse().unwrap(),
        "10.0.0.2:3478".parse().unwrap(),
    );
    let mut client = TurnClientUdp::allocate(local, remote, config);
    assert!(client.poll_transmit(Instant::ZERO).is_some());
    black_box(format!("{client:?}"));
}

// This test stands alone: others would give back memory beside it.
#[test]
fn a_dropped_client_leaves_no_password() {
    // the heap sees one that is not overwritten
    drop(black_box(PASSWORD.to_vec()));
    assert_eq!(WITH_PASSWORD.swap(0, SeqCst), 1);
    let before = LOOKED_AT.load(SeqCst);
    use_a_client();
    assert!(LOOKED_AT.load(SeqCst) > before);
    assert_eq!(WITH_PASSWORD.load(SeqCst), 0);
}
