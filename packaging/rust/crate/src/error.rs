//! Why a symbol has no declaration.

use crate::library::{CallResult, OUT_OF_MEMORY, TOO_LONG, TOO_MANY_NODES};
use std::fmt;

/// A result whose error is [`Error`].
pub type Result<T> = std::result::Result<T, Error>;

/// A limit that a caller sets.
#[derive(Clone, Copy, Debug, PartialEq, Eq)]
pub enum Limit {
    /// The nodes of a symbol's tree.
    Nodes,
    /// The bytes of a declaration.
    Bytes,
}

/// Why a call failed.
#[derive(Clone, Debug, PartialEq, Eq)]
pub struct Error {
    status: u32,
    offset: usize,
    message: String,
}

impl Error {
    pub(crate) fn new(result: CallResult, message: String) -> Error {
        Error {
            status: result.status,
            offset: result.offset,
            message,
        }
    }

    /// Returns the offset in the input, in bytes, at which it was rejected, or up to which it is UTF-8; `None` if
    /// memory ran out.
    pub fn offset(&self) -> Option<usize> {
        if self.is_out_of_memory() {
            None
        } else {
            Some(self.offset)
        }
    }

    /// Returns the limit that the error is about: the input has no tree of so few nodes, or a longer declaration.
    /// `None` with an offset means that it has no tree of any size, or is not UTF-8.
    ///
    /// ```
    /// use msvc_demangler::{demangle, demangle_within, DemangleFlags, Limit};
    ///
    /// let flags = DemangleFlags::llvm();
    /// let error = demangle_within("?x@ns@@3HA", flags, 1, usize::MAX).unwrap_err();
    /// assert_eq!(error.limit(), Some(Limit::Nodes));
    /// assert_eq!(demangle("main", flags).unwrap_err().limit(), None);
    /// ```
    pub fn limit(&self) -> Option<Limit> {
        match self.status {
            TOO_MANY_NODES => Some(Limit::Nodes),
            TOO_LONG => Some(Limit::Bytes),
            _ => None,
        }
    }

    /// Tests whether memory ran out.
    pub fn is_out_of_memory(&self) -> bool {
        self.status == OUT_OF_MEMORY
    }
}

impl fmt::Display for Error {
    fn fmt(&self, f: &mut fmt::Formatter<'_>) -> fmt::Result {
        f.pad(&self.message)
    }
}

impl std::error::Error for Error {}
