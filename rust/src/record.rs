//! Keys, values and records, as the library has them.

use std::fmt;
use std::hash::{Hash, Hasher};
use std::ops::Deref;

use crate::Error;

/// The greatest key: a range up to it has no end.
pub const GREATEST: &[u8] = &[0xff; 32];

macro_rules! text {
    ($(#[$about:meta])* $name:ident, $most:literal, $bad:path) => {
        $(#[$about])*
        #[derive(Clone, Copy)]
        #[repr(C)]
        pub struct $name {
            length: usize,
            bytes: [u8; $most],
        }

        impl $name {
            /// A copy of these bytes, where they are not too many.
            pub fn new(text: impl AsRef<[u8]>) -> Result<$name, Error> {
                let text = text.as_ref();
                let mut made = $name::default();
                made.bytes.get_mut(..text.len()).ok_or($bad(0))?.copy_from_slice(text);
                made.length = text.len();
                Ok(made)
            }
        }

        impl Default for $name {
            fn default() -> $name {
                $name { length: 0, bytes: [0; $most] }
            }
        }

        impl Deref for $name {
            type Target = [u8];

            fn deref(&self) -> &[u8] {
                &self.bytes[..self.length.min($most)]
            }
        }

        impl AsRef<[u8]> for $name {
            fn as_ref(&self) -> &[u8] {
                self
            }
        }

        impl PartialEq for $name {
            fn eq(&self, other: &$name) -> bool {
                **self == **other
            }
        }

        impl Eq for $name {}

        impl PartialOrd for $name {
            fn partial_cmp(&self, other: &$name) -> Option<std::cmp::Ordering> {
                Some(self.cmp(other))
            }
        }

        impl Ord for $name {
            fn cmp(&self, other: &$name) -> std::cmp::Ordering {
                (**self).cmp(&**other)
            }
        }

        impl Hash for $name {
            fn hash<H: Hasher>(&self, state: &mut H) {
                (**self).hash(state);
            }
        }

        impl fmt::Debug for $name {
            fn fmt(&self, f: &mut fmt::Formatter<'_>) -> fmt::Result {
                write!(f, "\"{}\"", self.escape_ascii())
            }
        }
    };
}

text! {
    /// A key: 0 to 32 bytes, ordered byte by byte.
    Key, 32, Error::BadKey
}

text! {
    /// A value: 0 to 64 bytes.
    Value, 64, Error::BadValue
}

/// A key with its value.
#[derive(Clone, Copy, Debug, Default, PartialEq, Eq, Hash)]
#[repr(C)]
pub struct Record {
    /// The key.
    pub key: Key,
    /// The value.
    pub value: Value,
}

impl Record {
    /// A record of copies.
    pub fn new(key: impl AsRef<[u8]>, value: impl AsRef<[u8]>) -> Result<Record, Error> {
        Ok(Record { key: Key::new(key)?, value: Value::new(value)? })
    }
}

/// Where structs of a caller's own have their keys and values, in bytes. Keys are compared byte by byte, so a number in one has
/// its highest byte first (`to_be_bytes`).
#[derive(Clone, Copy, Debug, PartialEq, Eq)]
#[repr(C)]
pub struct Layout {
    pub(crate) size: usize,
    /// In front of the key.
    pub key_at: usize,
    /// Of the key.
    pub key_length: usize,
    /// In front of the value.
    pub value_at: usize,
    /// Of the value.
    pub value_length: usize,
}

impl Layout {
    /// A key and a value of so many bytes, each at its place.
    pub fn new(key_at: usize, key_length: usize, value_at: usize, value_length: usize) -> Layout {
        Layout { size: 0, key_at, key_length, value_at, value_length }
    }
}

/// How large a store is.
#[derive(Clone, Copy, Debug, Default, PartialEq, Eq)]
#[repr(C)]
pub struct Figures {
    /// Entries of the index, those marked as deleted too.
    pub entries: u64,
    /// Those in the final partition.
    pub in_final: u64,
    /// Those in loaded runs, from where merges move them.
    pub in_runs: u64,
    /// Runs that have entries.
    pub runs: u64,
    /// Entries that are marked as deleted.
    pub ghosts: u64,
    /// Transactions that are active.
    pub active: u64,
    /// Transactions that committed.
    pub commits: u64,
}
