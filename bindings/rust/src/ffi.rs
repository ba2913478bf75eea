//! The exported functions and the structs of `agefile.h`, safe wrappers, and random bytes.

use std::io;

use crate::Error;

pub const TEXT_CHUNK: usize = 65536;
pub const SEALED_CHUNK: usize = 65552;
pub const TAG: usize = 16;
pub const NONCE: usize = 16;

// generated: structs of the library
#[repr(C)]
#[derive(Clone, Copy, Default)]
pub struct Summary {
    pub header_len: u64,
    pub stanzas: u64,
    pub mac: [u8; 32],
}

#[repr(C)]
#[derive(Clone, Copy, Default)]
pub struct StanzaSummary {
    pub args: u64,
    pub args_len: u64,
    pub body_len: u64,
}

#[cfg(feature = "parallel")]
#[repr(C)]
#[derive(Default)]
pub struct Part {
    pub key: [u8; 32],
    pub number: u64,
    pub left: u64,
    pub state: u64,
    pub spare: u64,
}

#[repr(C)]
#[derive(Default)]
pub struct Payload {
    pub key: [u8; 32],
    pub number: u64,
    pub state: u64,
    pub damaged: u32,
    pub before: u32,
    pub held: u64,
}

#[repr(C)]
#[derive(Default)]
pub struct Ranges {
    pub key: [u8; 32],
    pub first: u64,
    pub sealed_len: u64,
    pub state: u64,
}

#[repr(C)]
#[derive(Clone, Copy, Default)]
pub struct Report {
    pub len: u64,
    pub place: u64,
    pub detail: u64,
}
// end of structs of the library

#[allow(dead_code)]
#[rustfmt::skip]
extern "C" {
    // generated: functions of the library
    fn agefile_sealed_len(plain_len: u64) -> u64;
    fn agefile_plain_len_at_most(file_len: u64) -> u64;
    fn agefile_file_len(header_len: u64, plain_len: u64) -> u64;
    fn agefile_version() -> u32;
    fn agefile_inspect(front: *const u8, front_len: usize, summary: *mut Summary, report: *mut Report) -> u32;
    fn agefile_stanzas(front: *const u8, front_len: usize, stanzas: *mut StanzaSummary, stanzas_len: usize, text: *mut u8, text_len: usize, report: *mut Report) -> u32;
    fn agefile_unlock_passphrase(front: *const u8, front_len: usize, pass: *const u8, pass_len: usize, max_work: u8, file_key: *mut [u8; 16], report: *mut Report) -> u32;
    fn agefile_unlock_key(front: *const u8, front_len: usize, key: *const [u8; 32], file_key: *mut [u8; 16], report: *mut Report) -> u32;
    fn agefile_wrap_passphrase(file_key: *const [u8; 16], pass: *const u8, pass_len: usize, work: u8, salt: *const [u8; 16], out: *mut u8, out_len: usize, report: *mut Report) -> u32;
    fn agefile_wrap_key(file_key: *const [u8; 16], key: *const [u8; 32], salt: *const [u8; 16], out: *mut u8, out_len: usize, report: *mut Report) -> u32;
    fn agefile_wrap(args: *const u8, args_len: usize, body: *const u8, body_len: usize, out: *mut u8, out_len: usize, report: *mut Report) -> u32;
    fn agefile_header(stanzas: *const u8, stanzas_len: usize, file_key: *const [u8; 16], out: *mut u8, out_len: usize, report: *mut Report) -> u32;
    fn agefile_begin(stanzas: *const u8, stanzas_len: usize, file_key: *const [u8; 16], nonce: *const [u8; 16], out: *mut u8, out_len: usize, payload: *mut Payload, report: *mut Report) -> u32;
    fn agefile_open(front: *const u8, front_len: usize, file_key: *const [u8; 16], payload: *mut Payload, report: *mut Report) -> u32;
    fn agefile_open_next(payload: *mut Payload, chunk: *mut u8, chunk_len: usize, last: bool, report: *mut Report) -> u32;
    fn agefile_seal_next(payload: *mut Payload, chunk: *mut u8, chunk_len: usize, last: bool, report: *mut Report) -> u32;
    #[cfg(feature = "parallel")]
    fn agefile_take_part(payload: *mut Payload, count: u64, part: *mut Part, report: *mut Report) -> u32;
    #[cfg(feature = "parallel")]
    fn agefile_part_open_next(part: *mut Part, chunk: *mut u8, chunk_len: usize, report: *mut Report) -> u32;
    #[cfg(feature = "parallel")]
    fn agefile_part_seal_next(part: *mut Part, chunk: *mut u8, chunk_len: usize, report: *mut Report) -> u32;
    fn agefile_salvage_next(payload: *mut Payload, chunk: *mut u8, chunk_len: usize, last: bool, report: *mut Report) -> u32;
    fn agefile_ranges_open(front: *const u8, front_len: usize, file_len: u64, file_key: *const [u8; 16], ranges: *mut Ranges, report: *mut Report) -> u32;
    fn agefile_ranges_last(ranges: *mut Ranges, chunk: *mut u8, chunk_len: usize, report: *mut Report) -> u32;
    fn agefile_ranges_locate(ranges: *const Ranges, at: u64, report: *mut Report) -> u32;
    fn agefile_ranges_chunk(ranges: *const Ranges, at: u64, chunk: *mut u8, chunk_len: usize, report: *mut Report) -> u32;
    fn agefile_decrypt(file: *const u8, file_len: usize, file_key: *const [u8; 16], out: *mut u8, out_len: usize, report: *mut Report) -> u32;
    fn agefile_encrypt(plain: *const u8, plain_len: usize, stanzas: *const u8, stanzas_len: usize, file_key: *const [u8; 16], nonce: *const [u8; 16], out: *mut u8, out_len: usize, report: *mut Report) -> u32;
    // end of functions of the library
    fn getrandom(buf: *mut u8, len: usize, flags: u32) -> isize;
}

/// Calls a function of the library with a report after its other arguments, and returns the report
/// if the code is 0.
macro_rules! call {
    ($function:ident($($argument:expr),* $(,)?)) => {{
        let mut report = Report::default();
        // SAFETY: each pointer and length are those of one slice, array or struct, so none is null
        // and each is valid for its length; what the call writes is borrowed exclusively.
        let code = unsafe { $function($($argument,)* &mut report) };
        match code {
            0 => Ok(report),
            _ => Err(Error::of(code, &report)),
        }
    }};
}

pub fn version() -> u32 {
    // SAFETY: it has no parameters.
    unsafe { agefile_version() }
}

pub fn file_len(header_len: u64, plain_len: u64) -> u64 {
    // SAFETY: its parameters are two numbers.
    unsafe { agefile_file_len(header_len, plain_len) }
}

/// Returns fresh random bytes from the system.
pub fn random<const N: usize>() -> io::Result<[u8; N]> {
    let mut bytes = [0; N];
    let mut done = 0;
    while done < N {
        // SAFETY: the rest of the array is valid for its length.
        let count = unsafe { getrandom(bytes[done..].as_mut_ptr(), N - done, 0) };
        match usize::try_from(count) {
            Ok(count) => done += count,
            Err(_) => {
                let error = io::Error::last_os_error();
                if error.kind() != io::ErrorKind::Interrupted {
                    return Err(error);
                }
            }
        }
    }
    Ok(bytes)
}

#[rustfmt::skip]
mod safe {
    use super::*;

    // generated: safe functions of the library
    pub fn inspect(front: &[u8]) -> Result<(Summary, Report), Error> { let mut summary = Default::default(); let report = call!(agefile_inspect(front.as_ptr(), front.len(), &mut summary))?; Ok((summary, report)) }
    pub fn stanzas(front: &[u8], stanzas: &mut [StanzaSummary], text: &mut [u8]) -> Result<Report, Error> { call!(agefile_stanzas(front.as_ptr(), front.len(), stanzas.as_mut_ptr(), stanzas.len(), text.as_mut_ptr(), text.len())) }
    pub fn unlock_passphrase(front: &[u8], pass: &[u8], max_work: u8) -> Result<([u8; 16], Report), Error> { let mut file_key = Default::default(); let report = call!(agefile_unlock_passphrase(front.as_ptr(), front.len(), pass.as_ptr(), pass.len(), max_work, &mut file_key))?; Ok((file_key, report)) }
    pub fn unlock_key(front: &[u8], key: &[u8; 32]) -> Result<([u8; 16], Report), Error> { let mut file_key = Default::default(); let report = call!(agefile_unlock_key(front.as_ptr(), front.len(), key, &mut file_key))?; Ok((file_key, report)) }
    pub fn wrap_passphrase(file_key: &[u8; 16], pass: &[u8], work: u8, salt: &[u8; 16], out: &mut [u8]) -> Result<Report, Error> { call!(agefile_wrap_passphrase(file_key, pass.as_ptr(), pass.len(), work, salt, out.as_mut_ptr(), out.len())) }
    pub fn wrap_key(file_key: &[u8; 16], key: &[u8; 32], salt: &[u8; 16], out: &mut [u8]) -> Result<Report, Error> { call!(agefile_wrap_key(file_key, key, salt, out.as_mut_ptr(), out.len())) }
    pub fn wrap(args: &[u8], body: &[u8], out: &mut [u8]) -> Result<Report, Error> { call!(agefile_wrap(args.as_ptr(), args.len(), body.as_ptr(), body.len(), out.as_mut_ptr(), out.len())) }
    pub fn header(stanzas: &[u8], file_key: &[u8; 16], out: &mut [u8]) -> Result<Report, Error> { call!(agefile_header(stanzas.as_ptr(), stanzas.len(), file_key, out.as_mut_ptr(), out.len())) }
    pub fn begin(stanzas: &[u8], file_key: &[u8; 16], nonce: &[u8; 16], out: &mut [u8]) -> Result<(Payload, Report), Error> { let mut payload = Default::default(); let report = call!(agefile_begin(stanzas.as_ptr(), stanzas.len(), file_key, nonce, out.as_mut_ptr(), out.len(), &mut payload))?; Ok((payload, report)) }
    pub fn open(front: &[u8], file_key: &[u8; 16]) -> Result<(Payload, Report), Error> { let mut payload = Default::default(); let report = call!(agefile_open(front.as_ptr(), front.len(), file_key, &mut payload))?; Ok((payload, report)) }
    pub fn open_next(payload: &mut Payload, chunk: &mut [u8], last: bool) -> Result<Report, Error> { call!(agefile_open_next(payload, chunk.as_mut_ptr(), chunk.len(), last)) }
    pub fn seal_next(payload: &mut Payload, chunk: &mut [u8], last: bool) -> Result<Report, Error> { call!(agefile_seal_next(payload, chunk.as_mut_ptr(), chunk.len(), last)) }
    #[cfg(feature = "parallel")]
    pub fn take_part(payload: &mut Payload, count: u64) -> Result<(Part, Report), Error> { let mut part = Default::default(); let report = call!(agefile_take_part(payload, count, &mut part))?; Ok((part, report)) }
    #[cfg(feature = "parallel")]
    pub fn part_open_next(part: &mut Part, chunk: &mut [u8]) -> Result<Report, Error> { call!(agefile_part_open_next(part, chunk.as_mut_ptr(), chunk.len())) }
    #[cfg(feature = "parallel")]
    pub fn part_seal_next(part: &mut Part, chunk: &mut [u8]) -> Result<Report, Error> { call!(agefile_part_seal_next(part, chunk.as_mut_ptr(), chunk.len())) }
    pub fn salvage_next(payload: &mut Payload, chunk: &mut [u8], last: bool) -> Result<Report, Error> { call!(agefile_salvage_next(payload, chunk.as_mut_ptr(), chunk.len(), last)) }
    pub fn ranges_open(front: &[u8], file_len: u64, file_key: &[u8; 16]) -> Result<(Ranges, Report), Error> { let mut ranges = Default::default(); let report = call!(agefile_ranges_open(front.as_ptr(), front.len(), file_len, file_key, &mut ranges))?; Ok((ranges, report)) }
    pub fn ranges_last(ranges: &mut Ranges, chunk: &mut [u8]) -> Result<Report, Error> { call!(agefile_ranges_last(ranges, chunk.as_mut_ptr(), chunk.len())) }
    pub fn ranges_locate(ranges: &Ranges, at: u64) -> Result<Report, Error> { call!(agefile_ranges_locate(ranges, at)) }
    pub fn ranges_chunk(ranges: &Ranges, at: u64, chunk: &mut [u8]) -> Result<Report, Error> { call!(agefile_ranges_chunk(ranges, at, chunk.as_mut_ptr(), chunk.len())) }
    pub fn decrypt(file: &[u8], file_key: &[u8; 16], out: &mut [u8]) -> Result<Report, Error> { call!(agefile_decrypt(file.as_ptr(), file.len(), file_key, out.as_mut_ptr(), out.len())) }
    pub fn encrypt(plain: &[u8], stanzas: &[u8], file_key: &[u8; 16], nonce: &[u8; 16], out: &mut [u8]) -> Result<Report, Error> { call!(agefile_encrypt(plain.as_ptr(), plain.len(), stanzas.as_ptr(), stanzas.len(), file_key, nonce, out.as_mut_ptr(), out.len())) }
    // end of safe functions of the library
}

pub use safe::*;
