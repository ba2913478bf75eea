//! Damaged files on several threads and by ranges, and a file that changes while open. The expected
//! results follow by arithmetic. tests/test_packages.py compares each way of reading with vectors.

mod common;

use std::fs::{self, File};
use std::io::{Cursor, Read, Seek, SeekFrom};
use std::path::PathBuf;

use agefile::{Error, RangeReader};
use common::{fault, key, sealed, text, SEALED, TEXT};

#[cfg(feature = "parallel")]
#[test]
fn threads_find_the_first_bad_chunk() {
    let (mut file, front) = sealed(&text(49 * TEXT + 100));
    for chunk in [49, 48, 40, 31, 17, 1, 0] {
        file[front + chunk * SEALED] ^= 1;
        for threads in [1, 2, 4] {
            let error = Error::BadChunk(chunk as u64);
            assert_eq!(agefile::parallel::decrypt(&file, &[&key()], threads), Err(error), "{threads} threads");
        }
    }
}

/// Reads a whole chunk of a plaintext.
fn chunk_of(reader: &mut RangeReader<impl Read + Seek>, number: usize, len: usize) -> Result<Vec<u8>, Error> {
    let mut chunk = vec![0; (len - number * TEXT).min(TEXT)];
    reader.seek(SeekFrom::Start((number * TEXT) as u64)).unwrap();
    let result = reader.read_exact(&mut chunk);
    result.map(|()| chunk).map_err(fault)
}

/// A bad chunk stays bad, and the chunks read before and after it are right.
#[test]
fn ranges_around_a_bad_chunk_are_right() {
    let plain = text(4 * TEXT + 100);
    let (file, front) = sealed(&plain);
    for bad in 0..4 {
        let mut file = file.clone();
        file[front + bad * SEALED] ^= 1;
        let mut reader = RangeReader::new(Cursor::new(file), &[&key()]).unwrap();
        for number in (0..5).flat_map(|number| [number, bad, number]) {
            let found = chunk_of(&mut reader, number, plain.len());
            if number == bad {
                assert_eq!(found, Err(Error::BadChunk(bad as u64)));
                assert_eq!(reader.stream_position().unwrap(), (bad * TEXT) as u64);
            } else {
                assert!(plain[number * TEXT..].starts_with(&found.unwrap()), "chunk {number} beside the bad {bad}");
            }
        }
    }
}

#[test]
fn file_that_grows_or_is_cut_while_it_is_open() {
    let plain = text(5 * TEXT);
    let (file, front) = sealed(&plain);
    let path = PathBuf::from(env!("CARGO_TARGET_TMPDIR")).join("changed.age");
    for (len, chunks) in [(file.len() + 70_000, 5), (front + 2 * SEALED + 1000, 2)] {
        fs::write(&path, &file).unwrap();
        let mut reader = RangeReader::new(File::open(&path).unwrap(), &[&key()]).unwrap();
        File::options().write(true).open(&path).unwrap().set_len(len as u64).unwrap();
        for number in [0, 2, 1, 3, 0, 2, 4] {
            match chunk_of(&mut reader, number, plain.len()) {
                Ok(found) => assert!(number < chunks && plain[number * TEXT..].starts_with(&found), "chunk {number}"),
                Err(error) => assert!(number >= chunks && error == Error::ChunkShort(number as u64), "{error}"),
            }
        }
    }
}
