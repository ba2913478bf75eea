//! Tests of each way to make and to open files, of secrets, headers, callers' types, and errors.

mod common;

use std::io::{self, BufRead, Cursor, ErrorKind, Read, Seek, SeekFrom, Write};

use agefile::{
    decrypt, encrypt, inspect, library_version, rewrap, rewrap_copy, Error, FileKey, Header, Identity, Key, Opening,
    Part, Passphrase, RangeReader, Reader, Recipient, Stanza, Writer,
};
use common::{base64, fault, key, sealed, text, Call, Device, SEALED, TEXT};

/// A file of `hello` and LF for the empty passphrase, by `tests/reference.py` of this project.
const EMPTY_PASSPHRASE: &[u8] = include_bytes!("empty_passphrase.age");

/// Lengths of plaintexts, most of them around the edges of chunks.
const SIZES: [usize; 8] = [0, 1, 16, 65535, 65536, 65537, 131072, 200000];

fn passphrase() -> Passphrase {
    Passphrase::new("correct horse").with_work(3).with_max_work(12)
}

fn streamed(plain: &[u8], recipient: &dyn Recipient, piece: usize) -> Vec<u8> {
    let mut writer = Writer::new(Vec::new(), &[recipient]).unwrap();
    for piece in plain.chunks(piece) {
        writer.write_all(piece).unwrap();
        assert_eq!(writer.write(b"").unwrap(), 0);
    }
    writer.finish().unwrap()
}

#[test]
fn buffer_is_one_chunk_and_never_empty_before_the_end() {
    let plain = b"some words\n".repeat(20000);
    let mut file = streamed(&plain, &key(), 1000);
    assert!(Reader::new(&file[..], &[&key()]).unwrap().lines().all(|line| line.unwrap() == "some words"));
    *file.last_mut().unwrap() ^= 1;
    let mut reader = Reader::new(&file[..], &[&key()]).unwrap();
    let mut verified: Vec<u8> = Vec::new();
    while let Ok(text) = reader.fill_buf() {
        assert!(!text.is_empty());
        verified.extend(text);
        reader.consume(1);
        reader.consume(usize::MAX);
    }
    assert_eq!(verified, plain[..196608]);
    assert_eq!(fault(reader.fill_buf().unwrap_err()), Error::BadChunk(3));
}

#[test]
fn each_way_makes_and_opens_the_same_format() {
    for plain in SIZES.map(text).into_iter().chain([text(40 * TEXT + 3)]) {
        let mut files = vec![encrypt(&plain, &[&key()]).unwrap()];
        files.extend([999, TEXT, 1 << 20].map(|piece| streamed(&plain, &key(), piece)));
        #[cfg(feature = "parallel")]
        for threads in [0, 1, 2, 3, 8, 1000, usize::MAX] {
            files.push(agefile::parallel::encrypt(&plain, &[&key()], threads).unwrap());
            assert_eq!(agefile::parallel::decrypt(&files[0], &[&key()], threads).unwrap(), plain);
        }
        for (i, file) in files.into_iter().enumerate() {
            assert_eq!(decrypt(&file, &[&key()]).unwrap(), plain);
            let mut back = Vec::new();
            Reader::new(Device::new(file).by(1 << (9 + i)), &[&key()]).unwrap().read_to_end(&mut back).unwrap();
            assert_eq!(back, plain);
        }
    }
}

/// The processor time of this thread in nanoseconds.
fn processor_time() -> u64 {
    let line = std::fs::read_to_string("/proc/thread-self/schedstat").unwrap();
    line.split(' ').next().unwrap().parse().unwrap()
}

#[test]
fn great_header_is_listed_in_a_tenth_of_a_second() {
    let stanzas = b"-> a\n\n".repeat(10911);
    let mac = [b"--- ", "A".repeat(43).as_bytes(), b"\n"].concat();
    let header = [b"age-encryption.org/v1\n", &stanzas[..], &mac].concat();
    let times = (0..10).map(|_| {
        let began = processor_time();
        assert_eq!(inspect(&header).unwrap().stanzas().len(), 10911);
        processor_time() - began
    });
    let least = times.min().unwrap();
    assert!(least < 100_000_000, "{least} ns");
}

/// A source whose reader must take less than ten seconds of processor time.
struct Timed(Device, u64);

impl Read for Timed {
    fn read(&mut self, out: &mut [u8]) -> io::Result<usize> {
        assert!(processor_time() - self.1 < 10_000_000_000);
        self.0.read(out)
    }
}

#[test]
fn great_header_may_come_in_single_bytes() {
    let stanzas = [b"-> a ", &[b'x'; 16000][..], b"\n\n"].concat().repeat(4);
    let header = [b"age-encryption.org/v1\n", &stanzas[..], b"--- ", &[b'A'; 43][..], b"\n"].concat();
    let source =
        |bytes: &[u8]| Device::new(bytes).by(1).failing(Call::Read, header.len()..usize::MAX, ErrorKind::WouldBlock);
    let cut = header.len() - 44;
    for (bytes, error) in [(&header[..cut], Error::HeaderTruncated), (&header, Error::NoMatch)] {
        let failed = Reader::new(Timed(source(bytes), processor_time()), &[&key()]).unwrap_err();
        assert_eq!(fault(failed), error);
    }
}

#[test]
fn ranges_are_slices() {
    for plain in SIZES.map(text) {
        let mut file = Cursor::new(encrypt(&plain, &[&key()]).unwrap());
        // Whatever its position, the whole source is the file.
        file.set_position(7);
        let mut reader = RangeReader::new(file, &[&key()]).unwrap();
        assert_eq!(reader.len(), plain.len() as u64);
        for at in [0, 1, 65535, 65536, 131071, 199999, 300000] {
            let mut back = Vec::new();
            reader.seek(SeekFrom::Start(at as u64)).unwrap();
            (&mut reader).take(70000).read_to_end(&mut back).unwrap();
            assert_eq!(back, plain[at.min(plain.len())..(at + 70000).min(plain.len())]);
        }
        assert_eq!(reader.seek(SeekFrom::End(0)).unwrap(), plain.len() as u64);
        assert_eq!(reader.is_empty(), plain.is_empty());
        for before in [SeekFrom::End(-1 - plain.len() as i64), SeekFrom::Current(i64::MIN)] {
            assert_eq!(reader.seek(before).unwrap_err().kind(), ErrorKind::InvalidInput);
        }
        for _ in 1..3 {
            reader.seek(SeekFrom::Current(5)).unwrap();
            assert_eq!(reader.read(&mut [0; 10]).unwrap(), 0);
        }
        assert_eq!(reader.stream_position().unwrap(), plain.len() as u64 + 10);
        let file = reader.into_inner().into_inner();
        assert_eq!(decrypt(&file, &[&key()]).unwrap(), plain);
        assert_eq!(Reader::new(&file[..], &[&key()]).unwrap().into_inner().len(), file.len().saturating_sub(4096));
    }
}

#[test]
fn each_fault_has_its_kind_and_those_of_this_crate_their_text() {
    use Error::*;
    let of_input = [NoMatch, WrongKey, NoRecipients, EmptyPassphrase, UntypedPassphrase, WorkFactor, BadArguments];
    let of_data = [NotAge, BadLine(1), HeaderTooLarge, MixedPassphrase, Malformed(Part::Salt), BadMac];
    let of_chunks = [ChunkShort(1), EmptyFinal(1), BadChunk(1), TooManyChunks, Other(99)];
    for (kind, errors) in [
        (ErrorKind::InvalidInput, &of_input[..]),
        (ErrorKind::InvalidData, &[&of_data[..], &of_chunks].concat()),
        (ErrorKind::UnexpectedEof, &[HeaderTruncated, NonceTruncated]),
        (ErrorKind::OutOfMemory, &[OutOfMemory]),
        (ErrorKind::Other, &[Refused, Incomplete]),
    ] {
        errors.iter().for_each(|error| assert_eq!(io::Error::from(*error).kind(), kind, "{error}"));
    }
    let texts = [Refused, Incomplete, Other(99)].map(|error| error.to_string());
    assert_eq!(texts, ["recipient refused", "an earlier write failed", "code 99"]);
}

#[test]
fn files_of_secrets_are_those_of_the_program() {
    let path = std::env::temp_dir().join(format!("secret.{}", std::process::id()));
    let read = |bytes: &[u8]| {
        std::fs::write(&path, bytes).unwrap();
        Passphrase::from_file(&path).map(|passphrase| passphrase.with_work(1).with_max_work(22))
    };
    let opens = |bytes: &[u8], text: &[u8]| {
        let file = encrypt(b"text", &[&Passphrase::new(text).with_work(1)]).unwrap();
        assert_eq!(decrypt(&file, &[&read(bytes).unwrap()]).unwrap(), b"text");
    };
    let rows: [(&[u8], &[u8]); 4] =
        [(b"word", b"word"), (b"word\n", b"word"), (b"a\nb\n", b"a\nb"), (b"\xff", b"\xff")];
    for (bytes, text) in rows {
        opens(bytes, text);
        let file = encrypt(b"text", &[&read(bytes).unwrap()]).unwrap();
        assert_eq!(decrypt(&file, &[&Passphrase::new(text)]).unwrap(), b"text");
    }
    assert_eq!(decrypt(EMPTY_PASSPHRASE, &[&read(b"\n").unwrap()]).unwrap(), b"hello\n");
    let untyped: [(&[u8], &[u8]); 7] = [
        (b"word\r", b"word\r"),
        (b"word\r\n", b"word\r"),
        (b"\n\n", b"\n"),
        (b"word\n\n", b"word\n"),
        (b"\xef\xbb\xbfword\n", b"\xef\xbb\xbfword"),
        (b"\xff\xfew\0", b"\xff\xfew\0"),
        (b"\xfe\xff\0w", b"\xfe\xff\0w"),
    ];
    for (bytes, text) in untyped {
        opens(bytes, text);
        let error = encrypt(b"", &[&read(bytes).unwrap()]).unwrap_err();
        assert_eq!(error.to_string(), "passphrase ends in CR or LF, or begins with a byte-order mark");
    }
    opens(&[b'a'; 65_536], &[b'a'; 65_536]);
    assert_eq!(read(&[b'a'; 65_537]).unwrap_err().kind(), ErrorKind::InvalidInput);
    for len in [0, 31, 32, 33, 64] {
        std::fs::write(&path, vec![7; len]).unwrap();
        match Key::from_file(&path) {
            Ok(found) => assert!(len == 32 && decrypt(&sealed(b"").0, &[&found]).is_ok(), "{len} bytes"),
            Err(error) => assert!(len != 32 && error.kind() == ErrorKind::InvalidInput, "{len} bytes: {error}"),
        }
    }
    let both = || [Passphrase::from_file(&path).map(drop), Key::from_file(&path).map(drop)];
    std::fs::File::create(&path).unwrap().set_len(1 << 40).unwrap();
    assert_eq!(both().map(|result| result.unwrap_err().kind()), [ErrorKind::InvalidInput; 2]);
    std::fs::remove_file(&path).unwrap();
    assert_eq!(both().map(|result| result.unwrap_err().kind()), [ErrorKind::NotFound; 2]);
}

#[test]
fn opening_goes_on_with_another_key() {
    let file = encrypt(b"text", &[&key()]).unwrap();
    let (header, rest) = file.split_at(inspect(&file).unwrap().text().len());
    let opening = || Opening::new(header.chain(Device::new(rest).by(16).blocking(0)));
    let (mut first, mut second, mut back) = (opening(), opening(), Vec::new());
    assert_eq!(fault(first.read(&[&Key::new([8; 32])]).unwrap_err()), Error::WrongKey);
    assert_eq!(first.read(&[&key()]).unwrap_err().kind(), ErrorKind::WouldBlock);
    first.read(&[]).unwrap();
    assert_eq!(fault(second.read(&[&Key::new([8; 32])]).unwrap_err()), Error::WrongKey);
    assert_eq!([second, opening()].map(|it| it.finish().unwrap_err()), [Error::NoMatch; 2]);
    assert_eq!(first.finish().unwrap().read_to_end(&mut back).unwrap_err().kind(), ErrorKind::WouldBlock);
}

/// A reader of this text, which comes in two pieces, fails with this error and waits for no more.
fn is_refused_at_once(text: &[u8], cut: usize, identities: &[&dyn Identity], error: Error) {
    let (first, second) = text.split_at(cut);
    let blocked = Device::new([]).blocking(0);
    let failed = Reader::new(first.chain(second).chain(blocked), identities).unwrap_err();
    assert_ne!(failed.kind(), ErrorKind::WouldBlock, "{error}: waits after {cut} of {} bytes", text.len());
    assert_eq!(fault(failed), error);
}

#[test]
fn no_byte_is_awaited_that_is_not_needed() {
    let wrong: &dyn Identity = &Key::new([8; 32]);
    let keys: Vec<Key> = (0..200).map(|i| Key::new([i; 32])).collect();
    let all: Vec<&dyn Recipient> = keys.iter().skip(9).map(|key| key as &dyn Recipient).collect();
    for recipients in [&[&key() as &dyn Recipient][..], &all] {
        let file = encrypt(&text(200000), recipients).unwrap();
        let header = inspect(&file).unwrap().text().to_vec();
        for cut in (1..header.len()).step_by(header.len() / 150).chain(header.len() - 60..header.len()) {
            is_refused_at_once(&header, cut, &[wrong], Error::WrongKey);
        }
        is_refused_at_once(&header, 5, &[], Error::NoMatch);
    }
    let rows: [(&[u8], Error); 4] = [
        (b"hello", Error::NotAge),
        (b"age-encryption.org/v2", Error::NotAge),
        (b"age-encryption.org/v1\nbad\n", Error::BadLine(2)),
        (b"age-encryption.org/v1\n-> a\n\n--- AAAA\n", Error::BadLine(4)),
    ];
    for (text, error) in rows {
        // The text is refused with its last byte at the latest.
        (1..text.len()).for_each(|cut| is_refused_at_once(text, cut, &[wrong], error));
    }
    let long = [b"age-encryption.org/v1\n-> ", &[b'a'; 65511][..]].concat();
    is_refused_at_once(&long, 40000, &[wrong], Error::HeaderTooLarge);
    let bad = [b"age-encryption.org/v1\n-> ", &[b'a'; 9000][..], b"\nbad!\n"].concat();
    (bad.len() - 6..bad.len()).for_each(|cut| is_refused_at_once(&bad, cut, &[wrong], Error::BadLine(3)));
}

/// A chunk is written once it is full and a byte follows it.
#[test]
fn unfinished_files_are_cut_after_their_full_chunks() {
    for len in [0, 10, TEXT, TEXT + 1, 2 * TEXT, 200000] {
        let mut file = Vec::new();
        let mut writer = Writer::new(&mut file, &[&key()]).unwrap();
        writer.write_all(&text(len)).unwrap();
        drop(writer);
        let chunks = len.saturating_sub(1) / TEXT;
        assert_eq!(file.len(), sealed(b"").1 + chunks * SEALED);
        let error = if chunks == 0 { Error::ChunkShort(0) } else { Error::BadChunk(chunks as u64 - 1) };
        assert_eq!(decrypt(&file, &[&key()]), Err(error));
    }
}

#[test]
fn nothing_is_written_before_the_header_is_known() {
    let old = encrypt(b"text", &[&key()]).unwrap();
    let (wrong, none): (&dyn Identity, &dyn Identity) = (&Key::new([8; 32]), &passphrase());
    let refused = |file: &[u8], identity: &dyn Identity, recipients: &[&dyn Recipient], error: Error| {
        let mut sink = Device::new([]);
        assert_eq!(fault(rewrap_copy(file, &mut sink, &[identity], recipients).unwrap_err()), error);
        assert_eq!(rewrap(file, &[identity], recipients), Err(error));
        assert_eq!(sink.calls, [0; 4]);
    };
    refused(&old, wrong, &[&key()], Error::WrongKey);
    refused(&old, none, &[&key()], Error::NoMatch);
    refused(&old, &WRONG, &[&key()], Error::BadMac);
    refused(&old[..60], &key(), &[&key()], Error::HeaderTruncated);
    refused(b"hello", &key(), &[&key()], Error::NotAge);
    let refusing: [(&[&dyn Recipient], Error); 5] = [
        (&[], Error::NoRecipients),
        (&[&key(), &passphrase()], Error::MixedPassphrase),
        (&[&key(), &passphrase().with_work(31)], Error::WorkFactor),
        (&[&passphrase().with_work(0)], Error::WorkFactor),
        (&[&key(), &Passphrase::new("")], Error::EmptyPassphrase),
    ];
    for (recipients, error) in refusing {
        refused(&old, &key(), recipients, error);
        assert_eq!(fault(encrypt(b"", recipients).unwrap_err()), error);
        let mut sink = Device::new([]);
        assert_eq!(fault(Writer::new(&mut sink, recipients).unwrap_err()), error);
        assert_eq!(sink.calls, [0; 4]);
    }
}

#[test]
fn rewrapped_file_is_for_the_new_recipients() {
    let (plain, other) = (text(100000), Key::new([8; 32]));
    let old = encrypt(&plain, &[&passphrase()]).unwrap();
    let new = rewrap(&old, &[&passphrase()], &[&key(), &other]).unwrap();
    assert_eq!(decrypt(&new, &[&other]).unwrap(), plain);
    assert_eq!(decrypt(&new, &[&passphrase()]), Err(Error::NoMatch));
}

#[test]
fn headers_are_shown() {
    let file = encrypt(b"text", &[&passphrase().with_work(10)]).unwrap();
    let header = inspect(&file).unwrap();
    assert_eq!((header.text().len(), header.stanzas().len()), (150, 1));
    assert_eq!((header.stanzas()[0].args[0].as_str(), header.stanzas()[0].args[2].as_str()), ("scrypt", "10"));
    assert_eq!(header.stanzas()[0].body.len(), 32);
    assert!(header.text().ends_with(format!("\n--- {}\n", base64(header.mac())).as_bytes()));
    assert!(library_version() >= (0, 4, 0));
}

/// A caller's own recipient and identity: the stanza's body is the file key, in the clear.
struct Plain;

impl Recipient for Plain {
    fn wrap(&self, file_key: &FileKey) -> Result<Vec<Stanza>, Error> {
        let stanza = |name: &str, body: &[u8]| Stanza { args: vec![name.into(), "x".into()], body: body.into() };
        Ok(vec![stanza("plain", &file_key.0), stanza("grease", &[0; 100])])
    }
}

impl Identity for Plain {
    fn unlock(&self, header: &Header) -> Result<Option<FileKey>, Error> {
        let mine = header.stanzas().iter().find(|stanza| stanza.args[0] == "plain");
        Ok(mine.map(|stanza| FileKey(stanza.body[..].try_into().unwrap())))
    }
}

#[test]
fn work_factors_are_18_and_at_most_22_or_those_that_were_set() {
    let path = std::env::temp_dir().join(format!("usual.{}", std::process::id()));
    std::fs::write(&path, "x").unwrap();
    let new = Passphrase::new("x");
    let rows = [
        (Passphrase::from_file(&path).unwrap().with_work(1), 1, 22),
        (new.clone().with_max_work(17), 18, 17),
        (new.clone().with_work(2).with_max_work(3), 2, 3),
        (new.clone().with_max_work(3).with_work(2), 2, 3),
    ];
    std::fs::remove_file(&path).unwrap();
    for (passphrase, work, most) in rows {
        let header = inspect(&encrypt(b"", &[&passphrase]).unwrap()).unwrap();
        assert_eq!(header.stanzas()[0].args[2], work.to_string());
        // The length of the body is looked at after the work factor, and before scrypt.
        for (work, part) in [(most, Part::BodyLength), (most + 1, Part::WorkFactorTooHigh)] {
            let stanza = format!("-> scrypt AAAAAAAAAAAAAAAAAAAAAA {work}\n{}\n", "A".repeat(42));
            let file = format!("age-encryption.org/v1\n{stanza}--- {}\n", "A".repeat(43));
            assert_eq!(decrypt(file.as_bytes(), &[&passphrase]), Err(Error::Malformed(part)));
        }
    }
}

/// An identity that returns this for each header.
struct Says(Result<Option<FileKey>, Error>);

impl Identity for Says {
    fn unlock(&self, _: &Header) -> Result<Option<FileKey>, Error> {
        self.0
    }
}

/// An identity that returns another file key.
const WRONG: Says = Says(Ok(Some(FileKey([0; 16]))));

/// The first match or error that is not a miss ends the search. Of misses a wrong key counts most.
#[test]
fn each_three_identities_find_what_the_first_or_the_gravest_finds() {
    let file = encrypt(b"", &[&Plain]).unwrap();
    let file_key = Plain.unlock(&inspect(&file).unwrap()).unwrap();
    let misses = [Ok(None), Err(Error::NoMatch), Err(Error::WrongKey)];
    let all = [misses[0], misses[1], misses[2], Err(Error::Refused), Err(Error::OutOfMemory), Ok(file_key)];
    for numbers in 0..all.len().pow(3) {
        let three = [0, 1, 2].map(|place| Says(all[numbers / all.len().pow(place) % all.len()]));
        let is_wrong = three.iter().any(|says| says.0 == misses[2]);
        let miss = Says(Err(if is_wrong { Error::WrongKey } else { Error::NoMatch }));
        let end = three.iter().find(|says| !misses.contains(&says.0));
        let expected = end.unwrap_or(&miss).0.map(|_| vec![]);
        let identities: Vec<&dyn Identity> = three.iter().map(|says| says as &dyn Identity).collect();
        assert_eq!(decrypt(&file, &identities), expected, "{:?}", three.map(|says| says.0.is_ok()));
    }
}

#[test]
fn callers_own_recipients_and_identities() {
    let file = encrypt(b"text", &[&key(), &Plain]).unwrap();
    assert_eq!(decrypt(&file, &[&Plain]).unwrap(), b"text");
    assert_eq!(decrypt(&file, &[&key()]).unwrap(), b"text");
    assert_eq!(inspect(&file).unwrap().stanzas()[2].args[0], "grease");
    assert_eq!(decrypt(&file, &[&WRONG]), Err(Error::BadMac));
    let alone = encrypt(b"", &[&passphrase()]).unwrap();
    let (stanzas, mac) = alone.split_at(inspect(&alone).unwrap().text().len() - 48);
    let (first, stanza) = stanzas.split_at(22);
    for mixed in [[stanzas, b"-> other\n\n", mac].concat(), [first, b"-> other\n\n", stanza, mac].concat()] {
        assert_eq!(decrypt(&mixed, &[&Plain]), Err(Error::MixedPassphrase));
    }
    struct Named<'a>(&'a [&'a str], usize);
    impl Recipient for Named<'_> {
        fn wrap(&self, _: &FileKey) -> Result<Vec<Stanza>, Error> {
            Ok(vec![Stanza { args: self.0.iter().map(|arg| arg.to_string()).collect(), body: text(self.1) }])
        }
    }
    for args in [&[""][..], &["a b"], &["ü"], &["a\n"], &["a", ""]] {
        assert_eq!(fault(encrypt(b"", &[&Named(args, 0)]).unwrap_err()), Error::BadArguments);
    }
    for len in (0..200).chain([1700, 10_000, 40_000]) {
        let args = ["x".repeat(len % 500 + 1), "x".to_string()];
        let file = encrypt(b"", &[&Named(&[&args[0], &args[1]], len)]).unwrap();
        assert_eq!(inspect(&file).unwrap().stanzas(), [Stanza { args: args.to_vec(), body: text(len) }]);
    }
}

#[test]
fn no_secret_is_printed() {
    let file = encrypt(&[7; 64], &[&key()]).unwrap();
    let mut opening = Opening::new(&file[..]);
    opening.read(&[&key()]).unwrap();
    let mut reader = Reader::new(&file[..], &[&key()]).unwrap();
    let mut ranges = RangeReader::new(Cursor::new(&file), &[&key()]).unwrap();
    let mut writer = Writer::new(Vec::new(), &[&key()]).unwrap();
    reader.read_exact(&mut [0]).unwrap();
    ranges.read_exact(&mut [0]).unwrap();
    writer.write_all(&[7; 64]).unwrap();
    let opening = format!("{opening:?}").replace(&file.len().to_string(), "all");
    let secrets = format!("{:?} {:?} {:?}", key(), passphrase(), FileKey([7; 16]));
    let text = format!("{opening} {secrets} {reader:?} {ranges:?} {writer:?}");
    assert!(!text.contains('7') && !text.contains("horse"), "{text}");
}

#[test]
fn all_types_go_to_other_threads() {
    fn both<T: Send + Sync>() {}
    both::<(Error, Part, Header, Stanza, FileKey, Key, Passphrase)>();
    both::<(Opening<io::Empty>, Reader<io::Empty>, RangeReader<Cursor<Vec<u8>>>, Writer<Vec<u8>>)>();
}
