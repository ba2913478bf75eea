//! Whole files.

use std::io::{self, Read, Write};

use crate::ffi::{self, NONCE, SEALED_CHUNK, TAG, TEXT_CHUNK};
use crate::front::Front;
use crate::header::{header_of, inspect, stanzas_text, unlock};
use crate::{Error, FileKey, Header, Identity, Recipient};

/// Returns the version of the library, such as `(0, 4, 0)`.
pub fn library_version() -> (u32, u32, u32) {
    let packed = ffi::version();
    (packed >> 16, packed >> 8 & 255, packed & 255)
}

/// Encrypts a plaintext for one or more recipients, and returns the age file.
pub fn encrypt(plain: &[u8], recipients: &[&dyn Recipient]) -> io::Result<Vec<u8>> {
    let (file_key, nonce) = (FileKey(ffi::random()?), ffi::random()?);
    let stanzas = stanzas_text(recipients, &file_key)?;
    let header_len = header_of(&stanzas, &file_key)?.len() as u64;
    let mut out = vec![0; ffi::file_len(header_len, plain.len() as u64) as usize];
    ffi::encrypt(plain, &stanzas, &file_key.0, &nonce, &mut out)?;
    Ok(out)
}

/// The largest length of the text of sealed chunks with this total length.
pub(crate) fn text_len(sealed: usize) -> usize {
    sealed / SEALED_CHUNK * TEXT_CHUNK + (sealed % SEALED_CHUNK).saturating_sub(TAG)
}

/// Decrypts an age file, and returns its plaintext. If the file has a fault, returns none of it.
pub fn decrypt(file: &[u8], identities: &[&dyn Identity]) -> Result<Vec<u8>, Error> {
    let header = inspect(file)?;
    let file_key = unlock(&header, identities)?;
    let sealed = file.len().saturating_sub(header.text().len() + NONCE);
    let mut out = vec![0; text_len(sealed)];
    ffi::decrypt(file, &file_key.0, &mut out)?;
    Ok(out)
}

/// Replaces the header of an age file by one for other recipients, and returns the new file. File
/// key and payload stay: whoever kept the old header can still open the file. The payload is not
/// verified.
pub fn rewrap(file: &[u8], identities: &[&dyn Identity], recipients: &[&dyn Recipient]) -> Result<Vec<u8>, Error> {
    let old = inspect(file)?;
    let new = new_header(&old, &unlock(&old, identities)?, recipients)?;
    Ok([&new, &file[old.text().len()..]].concat())
}

/// Replaces the header of an age file as [`rewrap`] does, from a source to a sink, in constant
/// memory.
///
/// The new header is made before the first byte is written, so a wrong key or an error of a
/// recipient leaves the sink unchanged. The new file is complete after `Ok`, which follows a flush of
/// the sink.
///
/// ```
/// # fn main() -> std::io::Result<()> {
/// # let (old, new) = (agefile::Key::new([7; 32]), agefile::Key::new([8; 32]));
/// # let file = agefile::encrypt(b"text", &[&old])?;
/// let mut rewrapped = Vec::new();
/// agefile::rewrap_copy(&file[..], &mut rewrapped, &[&old], &[&new])?;
/// assert_eq!(agefile::decrypt(&rewrapped, &[&new])?, b"text");
/// # Ok(())
/// # }
/// ```
pub fn rewrap_copy(
    mut source: impl Read,
    mut sink: impl Write,
    identities: &[&dyn Identity],
    recipients: &[&dyn Recipient],
) -> io::Result<()> {
    let mut front = Front::default();
    front.read(&mut source, identities)?;
    let old = inspect(&front.bytes)?;
    sink.write_all(&new_header(&old, front.file_key()?, recipients)?)?;
    sink.write_all(&front.bytes[old.text().len()..])?;
    io::copy(&mut source, &mut sink)?;
    sink.flush()
}

/// The header for other recipients, under the file key of the old one, whose MAC is verified.
fn new_header(old: &Header, file_key: &FileKey, recipients: &[&dyn Recipient]) -> Result<Vec<u8>, Error> {
    // To verify the MAC, the library wants a nonce after the header.
    ffi::open(&[old.text(), &[0; NONCE]].concat(), &file_key.0)?;
    header_of(&stanzas_text(recipients, file_key)?, file_key)
}
