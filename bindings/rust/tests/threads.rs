//! Where the system starts no thread: this binary has a `pthread_create` of its own, which counts its calls
//! and always fails.
#![cfg(feature = "parallel")]

mod common;

use std::sync::atomic::{AtomicUsize, Ordering::Relaxed};

use agefile::parallel::{decrypt, encrypt};
use common::key;

const AGAIN: i32 = 11;

static CALLS: AtomicUsize = AtomicUsize::new(0);

#[no_mangle]
extern "C" fn pthread_create(_: *mut u8, _: *const u8, _: *const u8, _: *mut u8) -> i32 {
    CALLS.fetch_add(1, Relaxed);
    AGAIN
}

#[test]
fn callers_own_thread_does_all_the_work() {
    assert!(std::thread::Builder::new().spawn(|| ()).is_err());
    for (threads, calls) in [(4, 1), (1, 0)] {
        CALLS.store(0, Relaxed);
        let file = encrypt(&[5; 300_000], &[&key()], threads).unwrap();
        assert_eq!(CALLS.swap(0, Relaxed), calls);
        assert_eq!(decrypt(&file, &[&key()], threads).unwrap(), [5; 300_000]);
        assert_eq!(CALLS.load(Relaxed), calls);
    }
}
