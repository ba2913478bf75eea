//! Encrypts standard input to standard output with the key in a file, or decrypts it, in constant
//! memory:
//!
//!     stream [-e] KEY_FILE

use std::fs::File;
use std::io::{self, BufRead, BufReader, Write};
use std::os::unix::io::AsFd;
use std::{env, process};

use agefile::{Key, Reader, Writer};

/// The length of the pieces read to encrypt; `io::copy` alone takes 8 KiB.
const PIECE: usize = 65536;

fn main() -> io::Result<()> {
    let words: Vec<String> = env::args().skip(1).collect();
    let (is_encrypting, name) = match &words[..] {
        [name] => (false, name),
        [word, name] if word == "-e" => (true, name),
        _ => {
            eprintln!("usage: stream [-e] KEY_FILE");
            process::exit(2);
        }
    };
    let key = Key::from_file(name)?;
    // As files, because `io::Stdout` looks for the ends of lines.
    let input = File::from(io::stdin().as_fd().try_clone_to_owned()?);
    let mut output = File::from(io::stdout().as_fd().try_clone_to_owned()?);
    if is_encrypting {
        let mut writer = Writer::new(output, &[&key])?;
        io::copy(&mut BufReader::with_capacity(PIECE, input), &mut writer)?;
        writer.finish()?;
    } else {
        let mut reader = Reader::new(input, &[&key])?;
        loop {
            let text = reader.fill_buf()?;
            if text.is_empty() {
                break;
            }
            output.write_all(text)?;
            let len = text.len();
            reader.consume(len);
        }
    }
    Ok(())
}
