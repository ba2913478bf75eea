//! The random parts of a file: each is the next 16 random bytes of the system. This binary has a
//! `getrandom` of its own, which `agefile` calls in place of the system's.

mod common;

use std::cell::RefCell;
use std::io::{self, Write};

use agefile::{encrypt, inspect, rewrap, rewrap_copy, Error, FileKey, Passphrase, Recipient, Stanza, Writer};
use common::{base64, key};

const OLD: &[u8] = include_bytes!("empty_passphrase.age");
const INTERRUPTED: i32 = 4;
const FAILED: i32 = 5;

#[derive(Debug, Default)]
struct System {
    /// How the next calls end, in reverse order: with so many bytes at most, or with an error.
    /// Later calls give all that they are asked for.
    ends: Vec<Result<usize, i32>>,
    given: Vec<u8>,
    /// The flags of all calls: 0 waits until the system's bytes are random.
    flags: u32,
}

thread_local! {
    static SYSTEM: RefCell<System> = RefCell::default();
}

#[no_mangle]
extern "C" fn getrandom(buf: *mut u8, len: usize, flags: u32) -> isize {
    extern "C" {
        fn __errno_location() -> *mut i32;
    }
    SYSTEM.with(|it| {
        let system = &mut *it.borrow_mut();
        system.flags |= flags;
        match system.ends.pop().unwrap_or(Ok(len)) {
            Ok(most) => {
                let count = most.min(len);
                for at in 0..count {
                    // No two of 256 bytes are equal.
                    let byte = (system.given.len() * 37 + 11) as u8;
                    system.given.push(byte);
                    // SAFETY: the caller's buffer has `len` bytes.
                    unsafe { *buf.add(at) = byte };
                }
                count as isize
            }
            Err(number) => {
                // SAFETY: the pointer is to this thread's `errno`.
                unsafe { *__errno_location() = number };
                -1
            }
        }
    })
}

/// Makes a file for these recipients.
type Way = fn(&[&dyn Recipient], &mut Vec<u8>) -> io::Result<()>;

/// Each way to make a file, and its number of random parts before the salts: file key and nonce.
const WAYS: &[(&str, usize, Way)] = &[
    ("encrypt", 2, |recipients, out| out.write_all(&encrypt(b"text", recipients)?)),
    ("Writer", 2, |recipients, out| {
        let mut writer = Writer::new(out, recipients)?;
        writer.write_all(b"text")?;
        Ok(writer.finish().map(|_| ())?)
    }),
    #[cfg(feature = "parallel")]
    ("parallel", 2, |recipients, out| out.write_all(&agefile::parallel::encrypt(b"text", recipients, 2)?)),
    ("rewrap", 0, |recipients, out| out.write_all(&rewrap(OLD, &[&Passphrase::new("")], recipients)?)),
    ("rewrap_copy", 0, |recipients, out| rewrap_copy(OLD, out, &[&Passphrase::new("")], recipients)),
];

/// Makes a file on a system with these `ends`. Returns the ends left over and the bytes given.
fn made(
    way: Way,
    recipients: &[&dyn Recipient],
    ends: Vec<Result<usize, i32>>,
    out: &mut Vec<u8>,
) -> io::Result<System> {
    SYSTEM.with(|it| it.replace(System { ends, ..System::default() }));
    let result = way(recipients, out);
    let system = SYSTEM.with(RefCell::take);
    assert_eq!(system.flags, 0);
    result.map(|()| system)
}

/// A key's recipient, which notes the file key.
#[derive(Default)]
struct Noting(RefCell<Vec<u8>>);

impl Recipient for Noting {
    fn wrap(&self, file_key: &FileKey) -> Result<Vec<Stanza>, Error> {
        self.0.replace(file_key.0.to_vec());
        key().wrap(file_key)
    }
}

fn has(bytes: &[u8], part: &[u8]) -> bool {
    bytes.windows(part.len()).any(|window| window == part)
}

#[test]
fn file_key_nonce_and_salts_are_the_random_bytes_in_turn() {
    let broken = [Ok(3), Err(INTERRUPTED), Ok(1), Err(INTERRUPTED), Err(INTERRUPTED), Ok(15)].repeat(20);
    for (name, parts, way) in WAYS {
        for ends in [vec![], broken.clone()] {
            let (noting, other, mut file) = (Noting::default(), Noting::default(), Vec::new());
            let given = made(*way, &[&noting, &other], ends, &mut file).unwrap().given;
            let header = inspect(&file).unwrap();
            let (file_key, nonce) = (noting.0.take(), &file[header.text().len()..][..16]);
            let salts = header.stanzas().iter().map(|stanza| stanza.args[1].clone());
            let expected = [&file_key, nonce].into_iter().take(*parts).map(base64).chain(salts).collect::<Vec<_>>();
            assert_eq!(given.chunks(16).map(base64).collect::<Vec<_>>(), expected, "{name}");
            assert!(!has(&file, &file_key) && !has(&file, base64(&file_key).as_bytes()), "{name}");
            assert_eq!(file_key, other.0.take());
        }
    }
}

#[test]
fn salt_of_a_passphrase_is_random() {
    let mut file = Vec::new();
    let passphrase = Passphrase::new("correct horse").with_work(3);
    let given = made(WAYS[0].2, &[&passphrase], vec![], &mut file).unwrap().given;
    assert_eq!(inspect(&file).unwrap().stanzas()[0].args[1], base64(&given[32..]));
}

#[test]
fn no_file_is_made_where_a_call_fails() {
    for (name, parts, way) in WAYS {
        for calls in 0..parts + 2 {
            let mut file = Vec::new();
            let ends = [vec![Err(FAILED)], vec![Ok(16); calls]].concat();
            let error = made(*way, &[&key(), &key()], ends, &mut file).unwrap_err();
            assert_eq!(file, [], "{name} after {calls} calls");
            match calls < *parts {
                true => assert_eq!(error.raw_os_error(), Some(FAILED), "{name}"),
                false => assert_eq!(common::fault(error), Error::Refused, "{name}"),
            }
        }
        let ends = vec![Ok(16); parts + 2];
        assert_eq!(made(*way, &[&key(), &key()], ends, &mut Vec::new()).unwrap().ends, [], "{name}");
    }
}
