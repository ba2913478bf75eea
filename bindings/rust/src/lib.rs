//! Reads and writes age v1 encrypted files (`age-encryption.org/v1`).
//!
//! - [`encrypt`], [`decrypt`], [`rewrap`] and [`inspect`] work on bytes in memory.
//! - [`Reader`], [`Writer`] and [`rewrap_copy`] work on streams of any size, in constant memory.
//! - [`RangeReader`] reads any part of a plaintext, and opens only the chunks that it needs.
//! - [`salvage`] saves what is left of a damaged file.
//! - The module `parallel`, with the feature of that name, encrypts and decrypts bytes in memory on
//!   several threads.
//!
//! A file is encrypted for one or more recipients, and decrypted with one or more identities. Both
//! may be a [`Passphrase`] or a [`Key`] of 32 bytes, or a caller's own [`Recipient`] or
//! [`Identity`]. Files for a `Passphrase` can be exchanged with `age`; only `agep` and `libagefile`
//! open files for a `Key`.
//!
//! ```
//! use std::io::{Read, Write};
//!
//! # fn main() -> std::io::Result<()> {
//! let key = agefile::Key::new([7; 32]);
//! let mut writer = agefile::Writer::new(Vec::new(), &[&key])?;
//! writer.write_all(b"one\ntwo\n")?;
//! let file = writer.finish()?;
//!
//! let mut plaintext = String::new();
//! agefile::Reader::new(&file[..], &[&key])?.read_to_string(&mut plaintext)?;
//! assert_eq!(plaintext, "one\ntwo\n");
//! # Ok(())
//! # }
//! ```
//!
//! The Rattle code in `libagefile`, the library underneath, is proved; this crate is ordinary,
//! tested Rust over it. Memory is not wiped, and constant time is not promised.
#![warn(missing_docs, missing_debug_implementations)]

/// Implements `Debug` with the type's name and these fields alone.
macro_rules! show {
    ($name:ident $(<$of:ident>)? { $($field:ident),* }) => {
        impl$(<$of>)? std::fmt::Debug for $name$(<$of>)? {
            fn fmt(&self, f: &mut std::fmt::Formatter<'_>) -> std::fmt::Result {
                f.debug_struct(stringify!($name))$(.field(stringify!($field), &self.$field))*.finish_non_exhaustive()
            }
        }
    };
}

mod error;
mod ffi;
mod front;
mod header;
#[cfg(feature = "parallel")]
pub mod parallel;
mod range_reader;
mod reader;
mod salvage;
mod secret;
mod whole;
mod writer;

pub use error::{Error, Part};
pub use header::{inspect, Header, Stanza};
pub use range_reader::RangeReader;
pub use reader::{Opening, Reader};
pub use salvage::{salvage, LostChunks, Salvaged};
pub use secret::{FileKey, Identity, Key, Passphrase, Recipient};
pub use whole::{decrypt, encrypt, library_version, rewrap, rewrap_copy};
pub use writer::{FinishError, Writer};

/// The examples of README.md, which the compiler checks.
#[cfg(doctest)]
#[doc = include_str!("../README.md")]
struct Readme;
