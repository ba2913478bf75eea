//! What is left of files whose reads fail. The expected results follow by arithmetic.
//! tests/test_packages.py compares `salvage` with a model, for damaged and cut files of all kinds.

mod common;

use std::fs::File;
use std::io::{self, Cursor, Read, Seek, Write};
use std::ops::Range;
use std::os::unix::io::OwnedFd;
use std::os::unix::net::UnixStream;

use agefile::{salvage, Key, Salvaged};
use common::{fault, key, sealed, text, Call, Device, SEALED, TEXT};

const CHUNKS: usize = 5;

fn saved(source: impl Read + Seek) -> io::Result<(Vec<u8>, Salvaged)> {
    let mut out = Vec::new();
    salvage(source, &mut out, &[&key()]).map(|report| (out, report))
}

/// A plaintext of five chunks, its file, and the offset of its first chunk.
fn file() -> (Vec<u8>, Vec<u8>, usize) {
    let plain = text(4 * TEXT + 1000);
    let (file, front) = sealed(&plain);
    (plain, file, front)
}

/// These runs of chunks must be zeros, and the report must say so.
fn assert_lost(source: impl Read + Seek, runs: &[(Range<usize>, bool)]) {
    let (mut plain, ..) = file();
    let len = plain.len();
    let (found, report) = saved(source).unwrap();
    let runs = runs.iter().map(|(chunks, is_unread)| {
        let bytes = chunks.start * TEXT..(chunks.end * TEXT).min(len);
        plain[bytes.clone()].fill(0);
        format!("{chunks:?}, {bytes:?}, {is_unread}")
    });
    let lost = report.lost.iter().map(|it| format!("{:?}, {:?}, {}", it.chunks, it.bytes, it.is_unread));
    assert_eq!(lost.collect::<Vec<_>>(), runs.collect::<Vec<_>>());
    assert!(found == plain);
    assert_eq!(report.is_whole, report.lost.is_empty());
    assert_eq!((report.len, report.chunks), (len as u64, CHUNKS as u64));
    assert_eq!((report.early, report.trailing, report.is_cut), (None, 0, false));
}

/// A file in which some bytes cannot be read.
fn disk(file: &[u8], bad: &[(usize, usize)]) -> Device {
    Device { bad: bad.to_vec(), ..Device::new(file) }
}

#[test]
fn file_from_its_position_on() {
    let (_, file, front) = file();
    let mut damaged = file.clone();
    for chunk in [0, 2, 3] {
        damaged[front + chunk * SEALED + 99] ^= 1;
    }
    let bad = 1000 + front + 4 * SEALED - 9;
    let mut later = disk(&[vec![1; 1000], damaged].concat(), &[(bad, bad + 1)]);
    later.file.set_position(1000);
    assert_lost(later, &[(0..1, false), (2..3, false), (3..4, true)]);
}

#[test]
fn bad_blocks_cost_their_chunks() {
    let (_, file, front) = file();
    for chunk in 0..CHUNKS {
        let start = front + chunk * SEALED;
        let end = (start + SEALED).min(file.len());
        // Zeros in place of a last byte that is zero would lose nothing.
        let places = [start, start + 1, start + 500, end - 17, end - 1];
        for at in places.into_iter().filter(|at| *at > 4096 && file[*at] != 0) {
            for (to, all_or_none) in [(at + 1, false), (end, false), (at + 1, true)] {
                assert_lost(Device { all_or_none, ..disk(&file, &[(at, to)]) }, &[(chunk..chunk + 1, true)]);
            }
        }
    }
    let blocks = [(front + SEALED - 17, front + SEALED + 1), (front + 3 * SEALED + 9, front + 3 * SEALED + 10)];
    assert_lost(disk(&file, &blocks), &[(0..2, true), (3..4, true)]);
    assert_lost(disk(&file, &[(4096, file.len())]), &[(0..CHUNKS, true)]);
    assert_lost(disk(&file, &[(file.len(), file.len() + 1)]), &[]);
}

#[test]
fn errors_of_the_header_and_of_a_disk_without_an_end() {
    let (_, file, front) = file();
    let bad = front + 2 * SEALED + 9;
    let endless = disk(&file, &[(bad, bad + 1)]).failing(Call::Seek, 1..2, None);
    assert_eq!(saved(endless).unwrap_err().to_string(), "bad block");
    let mut out = Vec::new();
    let wrong = salvage(Cursor::new(&file), &mut out, &[&Key::new([8; 32])]).unwrap_err();
    assert_eq!((fault(wrong), out.len()), (agefile::Error::WrongKey, 0));
    let mut changed = file.clone();
    changed[front - 20] = if file[front - 20] == b'A' { b'B' } else { b'A' };
    assert_eq!(fault(saved(Cursor::new(&changed)).unwrap_err()), agefile::Error::BadMac);
}

/// Like a pipe, a socket is a file that cannot seek.
#[test]
fn a_pipe() {
    let (plain, file, _) = file();
    let (mut input, output) = UnixStream::pair().unwrap();
    let writer = std::thread::spawn(move || input.write_all(&file));
    let (found, report) = saved(File::from(OwnedFd::from(output))).unwrap();
    writer.join().unwrap().unwrap();
    assert!(found == plain && report.is_whole);
}
