//! Encrypts or decrypts standard input to standard output by one API of the crate for Rust, for
//! comparisons with other programs:
//!   convert (whole | stream | ranges | threads) (encrypt | decrypt) (-k | -p) SECRET_FILE
//! After a fault, stream and ranges have written the plaintext before it. The line and the status
//! of a fault are those of agep.
//!   convert files salvage (-k | -p) SECRET_FILE
//! salvages files from standard input, each after its length. For each it writes the length of the
//! plaintext, the plaintext, and a line of JSON: the report, or the error as a text.

use std::io::{self, Cursor, Read, Write};
use std::{env, fs, process};

use agefile::{Identity, Key, Passphrase, RangeReader, Reader, Recipient, Salvaged, Writer};

/// The lengths of the pieces read and written: some chunks take several, some pieces span two.
const PIECES: [usize; 3] = [7_000, 100_000, 50_000];

fn encrypted(way: &str, plain: &[u8], recipient: &dyn Recipient) -> io::Result<Vec<u8>> {
    match way {
        "whole" => agefile::encrypt(plain, &[recipient]),
        "threads" => agefile::parallel::encrypt(plain, &[recipient], 3),
        _ => {
            let mut writer = Writer::new(Vec::new(), &[recipient])?;
            plain.chunks(PIECES[2]).try_for_each(|piece| writer.write_all(piece))?;
            Ok(writer.finish()?)
        }
    }
}

/// Reads to the end or to the first error, which must then come with every read that asks for a byte.
fn read_on(mut reader: impl Read, plain: &mut Vec<u8>) -> io::Result<()> {
    let mut room = [0; 100_000];
    for len in PIECES.into_iter().cycle() {
        match reader.read(&mut room[..len]) {
            Ok(0) => break,
            Ok(count) => plain.extend_from_slice(&room[..count]),
            Err(error) => {
                assert_eq!(reader.read(&mut []).unwrap(), 0);
                assert_eq!(reader.read(&mut room).unwrap_err().to_string(), error.to_string());
                return Err(error);
            }
        }
    }
    assert_eq!(reader.read(&mut room)?, 0);
    Ok(())
}

fn decrypt_to(plain: &mut Vec<u8>, way: &str, file: &[u8], identity: &dyn Identity) -> io::Result<()> {
    match way {
        "whole" => *plain = agefile::decrypt(file, &[identity])?,
        "threads" => *plain = agefile::parallel::decrypt(file, &[identity], 3)?,
        "ranges" => read_on(RangeReader::new(Cursor::new(file), &[identity])?, plain)?,
        _ => read_on(Reader::new(file, &[identity])?, plain)?,
    }
    Ok(())
}

fn json(saved: Salvaged) -> String {
    let Salvaged { len, chunks, early, trailing, is_cut, is_whole, .. } = saved;
    let early = early.map_or("null".into(), |early| early.to_string());
    let runs = saved.lost.iter().map(|lost| {
        format!("[[{:?}], [{:?}], {}]", lost.chunks, lost.bytes, lost.is_unread).replace("..", ", ")
    });
    let runs: Vec<_> = runs.collect();
    format!("[{len}, {chunks}, [{}], {early}, {trailing}, {is_cut}, {is_whole}]", runs.join(", "))
}

fn salvage_files(identity: &dyn Identity) -> io::Result<()> {
    let (mut input, mut output, mut len) = (io::stdin(), io::stdout(), [0; 8]);
    while input.read_exact(&mut len).is_ok() {
        let (mut file, mut plain) = (vec![0; u64::from_le_bytes(len) as usize], Vec::new());
        input.read_exact(&mut file)?;
        let report = match agefile::salvage(Cursor::new(file), &mut plain, &[identity]) {
            Ok(saved) => json(saved),
            Err(error) => format!("{:?}", error.to_string()),
        };
        output.write_all(&(plain.len() as u64).to_le_bytes())?;
        output.write_all(&plain)?;
        writeln!(output, "{report}")?;
        output.flush()?;
    }
    Ok(())
}

fn main() -> io::Result<()> {
    let words: Vec<String> = env::args().skip(1).collect();
    let [way, task, kind, secret] = &words[..] else { panic!("four words are needed") };
    let secret = fs::read(secret)?;
    let (key, passphrase);
    let (recipient, identity): (&dyn Recipient, &dyn Identity) = match kind.as_str() {
        "-k" => {
            key = Key::new(secret.try_into().expect("a key has 32 bytes"));
            (&key, &key)
        }
        _ => {
            passphrase = Passphrase::new(secret);
            (&passphrase, &passphrase)
        }
    };
    if task == "salvage" {
        return salvage_files(identity);
    }
    let mut input = Vec::new();
    io::stdin().read_to_end(&mut input)?;
    let mut output = Vec::new();
    let ended = match task.as_str() {
        "encrypt" => encrypted(way, &input, recipient).map(|file| output = file),
        _ => decrypt_to(&mut output, way, &input, identity),
    };
    io::stdout().write_all(&output)?;
    if let Err(error) = ended {
        eprintln!("agep: {error}");
        process::exit(1);
    }
    Ok(())
}
