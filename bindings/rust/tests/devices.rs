//! Each read, write, seek and flush of a device fails in turn, in each way, under each reader and
//! writer. The expected outcome follows from the bytes read or written.

mod common;

use std::cell::Cell;
use std::io::{self, Cursor, ErrorKind, Read, Seek, SeekFrom, Write};
use std::panic::{catch_unwind, AssertUnwindSafe};

use agefile::{
    decrypt, rewrap_copy, salvage, Error, FileKey, Header, Identity, Key, Opening, RangeReader, Reader, Writer,
};
use common::{fault, key, sealed, text, Call, Device, Failure, SEALED, TEXT};

/// Each kind of error that the system or a caller's own device may have.
fn kinds() -> Vec<ErrorKind> {
    use ErrorKind::{InvalidData, Other, UnexpectedEof, WriteZero};
    let mut kinds = vec![InvalidData, Other, UnexpectedEof, WriteZero];
    for kind in (1..134).map(|number| io::Error::from_raw_os_error(number).kind()) {
        kinds.extend(Some(kind).filter(|kind| !kinds.contains(kind)));
    }
    kinds
}

/// How calls of one kind fail: call `at` alone, or also calls after it.
#[derive(Debug)]
struct Case {
    call: Call,
    at: usize,
    is_once: bool,
    failure: Failure,
}

impl Case {
    /// Whether the call is made again, so that nobody notices.
    fn is_repeated(&self) -> bool {
        self.failure == Some(ErrorKind::Interrupted) && self.call != Call::Flush
    }

    /// The device's offset at its first failure, if that must be noticed.
    fn noticed(&self, device: &Device) -> Option<usize> {
        device.failed.first().copied().filter(|_| !self.is_repeated())
    }

    /// The error must be the device's own or, if that returned too much, say so.
    fn assert_error(&self, error: &io::Error) {
        let own = format!("{:?} ", self.call);
        let said = if self.failure.is_some() { &own } else { "the source returned more" };
        assert!(error.to_string().starts_with(said), "{self:?}: {error}");
        assert_eq!(error.kind(), self.failure.unwrap_or(ErrorKind::Other), "{self:?}");
    }
}

/// Makes a run over a device, and then one with each of these calls failing in each way.
fn each_failure(device: &Device, calls: &[Call], run: impl Fn(&mut Device, &Case)) {
    let mut whole = device.clone();
    let unnoticed = Some(ErrorKind::Interrupted);
    run(&mut whole, &Case { call: Call::Read, at: usize::MAX, is_once: true, failure: unnoticed });
    for call in calls.iter().copied() {
        let count = whole.calls[call as usize];
        assert!((1..100).contains(&count), "{count} times {call:?}");
        let too_much = Some(None).filter(|_: &Failure| call == Call::Read);
        for failure in kinds().into_iter().map(Some).chain(too_much) {
            for (at, is_once) in (0..count).flat_map(|at| [(at, true), (at, false)]) {
                let case = Case { call, at, is_once, failure };
                let end = if case.is_repeated() { at + 3 } else { usize::MAX };
                let numbers = at..if is_once { at + 1 } else { end };
                run(&mut device.clone().failing(call, numbers, failure), &case);
            }
        }
    }
}

/// The length of the plaintext of the chunks that have another byte after them among the first
/// `len` bytes of a file.
fn opened(len: usize, front: usize) -> usize {
    len.saturating_sub(front + 1) / SEALED * TEXT
}

/// The key, as an identity that counts how often it is asked.
struct Asked(Cell<usize>);

impl Identity for Asked {
    fn unlock(&self, header: &Header) -> Result<Option<FileKey>, Error> {
        self.0.set(self.0.get() + 1);
        key().unlock(header)
    }
}

/// The text read from a source, and the errors. Ends after `most` errors.
fn read_on(source: &mut Device, most: usize) -> (Vec<u8>, Vec<io::Error>) {
    let (mut came, mut errors, mut piece) = (Vec::new(), Vec::new(), [0; 7000]);
    let (mut opening, asked) = (Opening::new(source), Asked(Cell::new(0)));
    while let Err(error) = opening.read(&[&asked]) {
        errors.push(error);
        if errors.len() == most {
            return (came, errors);
        }
    }
    assert_eq!(asked.0.get(), 1);
    let mut reader = opening.finish().unwrap();
    while errors.len() < most {
        match reader.read(&mut piece) {
            Ok(0) => break,
            Ok(count) => came.extend_from_slice(&piece[..count]),
            Err(error) => errors.push(error),
        }
    }
    (came, errors)
}

#[test]
fn reader_goes_on_after_each_failed_read() {
    for (len, most) in [(2 * TEXT, usize::MAX), (2 * TEXT + 100, 40_000), (10, 100)] {
        let plain = text(len);
        let (file, front) = sealed(&plain);
        each_failure(&Device::new(file).by(most), &[Call::Read], |device, case| {
            let (came, errors) = read_on(device, 3);
            errors.iter().for_each(|error| case.assert_error(error));
            let (count, end) = match case.noticed(device) {
                None => (0, len),
                Some(_) if case.is_once => (1, len),
                Some(given) => (3, opened(given, front)),
            };
            assert!(errors.len() == count && came == plain[..end], "{case:?}: {} bytes, {errors:?}", came.len());
        });
    }
}

#[test]
fn reader_goes_on_however_often_its_source_would_block() {
    for (len, most, from) in [(1000, 100, 0), (70_000, 1, 0), (300_000, 20_000, 0), (300_000, 20_000, 5)] {
        let plain = text(len);
        let (came, errors) = read_on(&mut Device::new(sealed(&plain).0).by(most).blocking(from), 100_000);
        assert!(came == plain && errors.len() > 5, "{len} bytes, {} errors", errors.len());
        assert!(errors.iter().all(|error| error.kind() == ErrorKind::WouldBlock));
    }
}

/// Reads the chunks in turn, each several times. A failed call gives no wrong byte, then or later.
#[test]
fn ranges_are_right_after_each_failed_call() {
    let plain = text(2 * TEXT + 100);
    let (file, _) = sealed(&plain);
    for most in [40_000, usize::MAX] {
        each_failure(&Device::new(&file[..]).by(most), &[Call::Read, Call::Seek], |device, case| {
            let mut reader = match RangeReader::new(&mut *device, &[&key()]) {
                Ok(reader) => reader,
                Err(error) => return case.assert_error(&error),
            };
            let mut errors = 0;
            for at in [0, TEXT, 5, TEXT + 5, 2 * TEXT, 9, 2 * TEXT + 9, TEXT - 4, TEXT, 0] {
                let (mut out, end) = ([0; 10], (at / TEXT + 1) * TEXT);
                reader.seek(SeekFrom::Start(at as u64)).unwrap();
                match reader.read(&mut out) {
                    Ok(count) => assert_eq!(out[..count], plain[at..end.min(at + 10)], "{case:?}"),
                    Err(error) => {
                        case.assert_error(&error);
                        assert_eq!(reader.stream_position().unwrap(), at as u64);
                        errors += 1;
                    }
                }
            }
            let expected = if case.noticed(device).is_some() { 1..if case.is_once { 2 } else { 11 } } else { 0..1 };
            assert!(expected.contains(&errors), "{case:?}: {errors}");
        });
    }
}

#[test]
fn salvage_loses_the_chunks_whose_reads_fail() {
    let plain = text(2 * TEXT + 1000);
    let (file, front) = sealed(&plain);
    for most in [40_000, usize::MAX] {
        each_failure(&Device::new(&file[..]).by(most), &[Call::Read], |device, case| {
            let mut came = Vec::new();
            let result = salvage(&mut *device, &mut came, &[&key()]);
            let (mut expected, mut lost) = (plain.clone(), None);
            match case.noticed(device) {
                Some(at) if at < front || case.failure == Some(ErrorKind::WouldBlock) => {
                    case.assert_error(&result.unwrap_err());
                    return assert!(came == plain[..opened(at, front)], "{case:?}: {} bytes", came.len());
                }
                Some(at) if at < file.len() => {
                    let first = (at - front) / SEALED;
                    let end = if case.is_once { first + 1 } else { 3 };
                    let bytes = first * TEXT..plain.len().min(end * TEXT);
                    expected[bytes.clone()].fill(0);
                    lost = Some((first as u64..end as u64, bytes.start as u64..bytes.end as u64, true));
                }
                _ => {}
            }
            let saved = result.unwrap();
            let runs: Vec<_> = saved.lost.into_iter().map(|run| (run.chunks, run.bytes, run.is_unread)).collect();
            assert!(came == expected && (saved.is_whole, saved.is_cut) == (lost.is_none(), false), "{case:?}");
            assert_eq!(runs, Vec::from_iter(lost), "{case:?}");
        });
    }
}

#[test]
fn salvage_ends_if_it_cannot_seek() {
    let plain = text(2 * TEXT + 1000);
    let (file, front) = sealed(&plain);
    let bad = (front + SEALED + 9, front + SEALED + 10);
    each_failure(&Device { bad: vec![bad], ..Device::new(file) }, &[Call::Seek], |device, case| {
        let mut came = Vec::new();
        let result = salvage(&mut *device, &mut came, &[&key()]);
        match case.at {
            _ if case.is_repeated() => return assert_eq!(result.unwrap().lost.len(), 1),
            // A source that does not tell its position is a pipe.
            0 => assert_eq!(result.unwrap_err().to_string(), "bad block"),
            _ => case.assert_error(&result.unwrap_err()),
        }
        assert!(came == plain[..TEXT], "{case:?}");
    });
}

#[test]
fn copy_under_a_new_header_ends_with_each_failed_read() {
    let other = Key::new([8; 32]);
    for (len, most) in [(2 * TEXT + 100, 40_000), (2 * TEXT + 100, usize::MAX), (10, 1)] {
        let plain = text(len);
        let (file, front) = sealed(&plain);
        each_failure(&Device::new(&file[..]).by(most.max(front)), &[Call::Read], |device, case| {
            let mut sink = Device::new([]);
            let copied = AssertUnwindSafe(|| rewrap_copy(&mut *device, &mut sink, &[&key()], &[&other]));
            // The standard library ends a copy by a panic if the source returns too much.
            let result = catch_unwind(copied)
                .unwrap_or_else(|_| Err(io::Error::new(ErrorKind::Other, "the source returned more")));
            let given = match case.noticed(device) {
                None => return assert!(result.is_ok() && decrypt(sink.contents(), &[&other]).unwrap() == plain),
                Some(given) => given,
            };
            case.assert_error(&result.unwrap_err());
            let expected = if given < front { &[] } else { &file[front - 16..given] };
            assert_eq!(sink.calls[Call::Flush as usize], 0);
            assert!(&sink.contents()[sink.contents().len().min(front - 16)..] == expected, "{case:?}");
        });
    }
}

/// Writes a file, and goes on after the first error, which it returns.
fn written(plain: &[u8], sink: &mut Device) -> io::Result<()> {
    let mut writer = Writer::new(sink, &[&key()])?;
    let mut errors: Vec<_> = plain.chunks(9999).filter_map(|piece| writer.write_all(piece).err()).collect();
    match writer.finish() {
        Ok(_) => assert!(errors.is_empty(), "a file is complete after {errors:?}"),
        Err(failed) => {
            let said = (failed.error().kind(), failed.to_string());
            let (error, _) = failed.into_parts();
            assert_eq!(said, (error.kind(), error.to_string()));
            errors.push(error);
        }
    }
    let mut errors = errors.into_iter();
    let first = errors.next();
    errors.for_each(|error| assert_eq!(fault(error), Error::Incomplete));
    first.map_or(Ok(()), Err)
}

#[test]
fn no_file_is_complete_after_a_failed_write() {
    type Way = fn(&[u8], &mut Device) -> io::Result<()>;
    let rewrapped: Way = |plain, sink| rewrap_copy(&sealed(plain).0[..], sink, &[&key()], &[&key()]);
    let salvaged: Way = |plain, sink| salvage(Cursor::new(sealed(plain).0), sink, &[&key()]).map(drop);
    let front = sealed(b"").1;
    for (way, is_sealed) in [(written as Way, true), (rewrapped, true), (salvaged, false)] {
        for (len, most) in [(2 * TEXT, usize::MAX), (2 * TEXT + 100, 40_000), (10, 100)] {
            let plain = text(len);
            each_failure(&Device::new([]).by(most), &[Call::Write, Call::Flush], |sink, case| {
                let result = way(&plain, sink);
                let is_noticed = case.noticed(sink).is_some();
                if let Err(error) = &result {
                    case.assert_error(error);
                }
                assert_eq!(result.is_err(), is_noticed, "{case:?}");
                let has_all = !is_noticed || case.call == Call::Flush;
                let (mut came, bytes) = (Vec::new(), sink.contents());
                if is_sealed {
                    let read = Reader::new(bytes, &[&key()]).and_then(|mut reader| reader.read_to_end(&mut came));
                    assert_eq!(read.is_ok(), has_all, "{case:?}");
                    assert!(came == plain[..if has_all { len } else { opened(bytes.len(), front) }], "{case:?}");
                } else {
                    assert!(plain.starts_with(bytes) && (bytes.len() == len) == has_all, "{case:?}");
                }
                assert!(is_noticed || (sink.calls[Call::Flush as usize], sink.flushed) == (1, bytes.len()), "{case:?}");
            });
        }
    }
}

#[test]
fn sinks_that_fail_to_flush_that_take_nothing_and_that_take_too_much() {
    let plain = text(100_000);
    for kind in kinds() {
        let mut sink = Device::new([]).failing(Call::Flush, 0..1, kind);
        let mut writer = Writer::new(&mut sink, &[&key()]).unwrap();
        writer.write_all(&plain[..70_000]).unwrap();
        assert_eq!(writer.flush().unwrap_err().kind(), kind);
        writer.write_all(&plain[70_000..]).unwrap();
        writer.finish().unwrap();
        assert!(sink.flushed == sink.contents().len() && decrypt(sink.contents(), &[&key()]).unwrap() == plain);
    }
    assert_eq!(Writer::new(Device::new([]).by(0), &[&key()]).unwrap_err().kind(), ErrorKind::WriteZero);
    // The standard library ends a write by a panic if the sink takes too much.
    let mut writer = Writer::new(Device::new([]).failing(Call::Write, 1..2, None), &[&key()]).unwrap();
    catch_unwind(AssertUnwindSafe(|| writer.write_all(&plain))).unwrap_err();
    assert_eq!(fault(writer.finish().unwrap_err().into()), Error::Incomplete);
}
