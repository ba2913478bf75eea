//! Whole files in memory, on several threads. Each thread seals or opens its own parts of the
//! payload.
//!
//! ```
//! # fn main() -> std::io::Result<()> {
//! let key = agefile::Key::new([7; 32]);
//! let file = agefile::parallel::encrypt(&[5; 300_000], &[&key], 4)?;
//! assert_eq!(agefile::parallel::decrypt(&file, &[&key], 4)?, [5; 300_000]);
//! # Ok(())
//! # }
//! ```

use std::io;
use std::sync::Mutex;
use std::thread;

use crate::ffi::{self, Part, Payload, NONCE, SEALED_CHUNK, TEXT_CHUNK};
use crate::header::{header_of, inspect, stanzas_text, unlock};
use crate::whole::text_len;
use crate::{Error, FileKey, Identity, Recipient};

/// Seals or opens the next chunk of a part, from the first slice into the second.
type Step = fn(&mut Part, &[u8], &mut [u8]) -> Result<(), Error>;

/// Encrypts a plaintext as [`crate::encrypt`] does, on up to `threads` threads (0 means 1). Uses
/// fewer if the system cannot start as many, or for a short plaintext.
pub fn encrypt(plain: &[u8], recipients: &[&dyn Recipient], threads: usize) -> io::Result<Vec<u8>> {
    let (file_key, nonce) = (FileKey(ffi::random()?), ffi::random()?);
    let stanzas = stanzas_text(recipients, &file_key)?;
    let header_len = header_of(&stanzas, &file_key)?.len() as u64;
    let mut out = vec![0; ffi::file_len(header_len, plain.len() as u64) as usize];
    let (mut payload, begun) = ffi::begin(&stanzas, &file_key.0, &nonce, &mut out)?;
    let sealed = &mut out[begun.len as usize..];
    let (plain, sealed) =
        in_parts(&mut payload, plain, TEXT_CHUNK, sealed, SEALED_CHUNK, threads, |part, text, chunk| {
            chunk[..TEXT_CHUNK].copy_from_slice(text);
            ffi::part_seal_next(part, chunk).map(|_| ())
        })?;
    sealed[..plain.len()].copy_from_slice(plain);
    ffi::seal_next(&mut payload, sealed, true)?;
    Ok(out)
}

/// Decrypts an age file as [`crate::decrypt`] does, on up to `threads` threads.
pub fn decrypt(file: &[u8], identities: &[&dyn Identity], threads: usize) -> Result<Vec<u8>, Error> {
    let header = inspect(file)?;
    let file_key = unlock(&header, identities)?;
    let (mut payload, _) = ffi::open(file, &file_key.0)?;
    let front = header.text().len() + NONCE;
    let mut out = vec![0; text_len(file.len() - front)];
    let (sealed, text) =
        in_parts(&mut payload, &file[front..], SEALED_CHUNK, &mut out, TEXT_CHUNK, threads, |part, chunk, text| {
            let mut buf = chunk.to_vec();
            ffi::part_open_next(part, &mut buf)?;
            text.copy_from_slice(&buf[..TEXT_CHUNK]);
            Ok(())
        })?;
    let mut last = sealed.to_vec();
    let len = ffi::open_next(&mut payload, &mut last, true)?.len as usize;
    text[..len].copy_from_slice(&last[..len]);
    Ok(out)
}

/// Processes all chunks except the last, and returns the rest of the input and of the output. If
/// chunks have errors, returns that of the first: threads take the parts in order, and each stops
/// only at an error.
fn in_parts<'a, 'b>(
    payload: &mut Payload,
    input: &'a [u8],
    take: usize,
    output: &'b mut [u8],
    give: usize,
    threads: usize,
    step: Step,
) -> Result<(&'a [u8], &'b mut [u8]), Error> {
    let chunks = input.len().saturating_sub(1) / take;
    let (input, last) = input.split_at(chunks * take);
    let (output, rest) = output.split_at_mut(chunks * give);
    let each = chunks.saturating_sub(1) / threads.max(1) + 1;
    let mut parts = Vec::new();
    for (input, output) in input.chunks(each * take).zip(output.chunks_mut(each * give)) {
        parts.push((ffi::take_part(payload, (input.len() / take) as u64)?.0, input, output));
    }
    let others = parts.len().saturating_sub(1);
    let queue = Mutex::new(parts.into_iter().enumerate());
    let next = || queue.lock().expect("no panic").next();
    let work = || -> Result<(), (usize, Error)> {
        while let Some((index, (mut part, input, output))) = next() {
            let mut pairs = input.chunks(take).zip(output.chunks_mut(give));
            pairs.try_for_each(|(from, to)| step(&mut part, from, to)).map_err(|error| (index, error))?;
        }
        Ok(())
    };
    let done: Vec<_> = thread::scope(|scope| {
        let start = || thread::Builder::new().spawn_scoped(scope, work);
        let running: Vec<_> = (0..others).map_while(|_| start().ok()).collect();
        let own = work();
        running.into_iter().map(|thread| thread.join().expect("no panic")).chain([own]).collect()
    });
    match done.into_iter().filter_map(Result::err).min_by_key(|(index, _)| *index) {
        Some((_, error)) => Err(error),
        None => Ok((last, rest)),
    }
}
