//! serde, bincode, base64, flate2 and sha256: names that let machine.rs build. Serializing is left
//! out of the port and of the comparison, so each of them answers with an error.

use std::fmt;
use std::io::{self, Read, Write};

/// What every serializing stand-in answers.
#[derive(Debug)]
pub struct NotBuilt;

impl fmt::Display for NotBuilt {
    fn fmt(&self, f: &mut fmt::Formatter<'_>) -> fmt::Result {
        f.write_str("serializing is not built here")
    }
}

impl From<NotBuilt> for io::Error {
    fn from(e: NotBuilt) -> Self {
        io::Error::other(e.to_string())
    }
}

pub struct DefaultOptions;

impl DefaultOptions {
    #[allow(clippy::new_without_default)]
    pub fn new() -> Self {
        DefaultOptions
    }
}

pub trait Options: Sized {
    fn with_limit(self, _: u64) -> Self {
        self
    }
    fn serialize<T>(&self, _: &T) -> Result<Vec<u8>, NotBuilt> {
        Err(NotBuilt)
    }
    fn deserialize<T>(&self, _: &[u8]) -> Result<T, NotBuilt> {
        Err(NotBuilt)
    }
}

impl Options for DefaultOptions {}

pub struct Compression;

impl Compression {
    pub fn best() -> Self {
        Compression
    }
}

pub mod read {
    use super::*;

    pub struct ZlibDecoder;

    impl ZlibDecoder {
        pub fn new(_: &[u8]) -> Self {
            ZlibDecoder
        }
    }

    impl Read for ZlibDecoder {
        fn read(&mut self, _: &mut [u8]) -> io::Result<usize> {
            Err(NotBuilt.into())
        }
    }
}

pub mod write {
    use super::*;

    pub struct ZlibEncoder;

    impl ZlibEncoder {
        pub fn new(_: Vec<u8>, _: Compression) -> Self {
            ZlibEncoder
        }
        pub fn finish(self) -> io::Result<Vec<u8>> {
            Err(NotBuilt.into())
        }
    }

    impl Write for ZlibEncoder {
        fn write(&mut self, _: &[u8]) -> io::Result<usize> {
            Err(NotBuilt.into())
        }
        fn flush(&mut self) -> io::Result<()> {
            Err(NotBuilt.into())
        }
    }
}

pub mod prelude {
    use super::NotBuilt;

    pub struct Base64;

    pub const BASE64_STANDARD: Base64 = Base64;

    impl Base64 {
        pub fn encode(&self, _: Vec<u8>) -> String {
            NotBuilt.to_string()
        }
        pub fn decode(&self, _: &[u8]) -> Result<Vec<u8>, NotBuilt> {
            Err(NotBuilt)
        }
    }
}

pub fn digest(_: String) -> String {
    NotBuilt.to_string()
}
