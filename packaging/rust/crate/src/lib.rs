#![doc = include_str!("../README.md")]
#![deny(missing_docs, unsafe_code)]

mod error;
mod flags;
mod library;

pub use error::{Error, Limit, Result};
pub use flags::DemangleFlags;

/// The limit of [`demangle`] on the nodes of a symbol's tree, where each name and each type is a node, at every depth.
pub const DEFAULT_NODE_LIMIT: usize = 10_000;

/// The limit of [`demangle`] on the bytes of a declaration.
pub const DEFAULT_BYTE_LIMIT: usize = 65_536;

/// Returns the declaration of the symbol that `input` begins with. What follows the symbol is ignored.
///
/// It has the limits [`DEFAULT_NODE_LIMIT`] and [`DEFAULT_BYTE_LIMIT`], which suit symbols that are not trusted. These
/// are the one departure from the crate whose name it has: that one has no limits.
///
/// # Errors
///
/// Fails if `input` begins with no symbol, if the symbol exceeds a limit, or if memory runs out.
///
/// ```
/// use msvc_demangler::{demangle, DemangleFlags};
///
/// assert_eq!(demangle("?x@ns@@3HA", DemangleFlags::NAME_ONLY)?, "ns::x");
///
/// let error = demangle("?x@@3L", DemangleFlags::llvm()).unwrap_err();
/// assert_eq!(error.to_string(), "unknown primitive type (offset: 6, remaining: \"\")");
/// assert_eq!(error.offset(), Some(6));
/// # Ok::<(), msvc_demangler::Error>(())
/// ```
pub fn demangle(input: &str, flags: DemangleFlags) -> Result<String> {
    demangle_within(input, flags, DEFAULT_NODE_LIMIT, DEFAULT_BYTE_LIMIT)
}

/// Demangles the symbol that `input` begins with, as today's compilers write it. What follows the symbol is ignored.
///
/// It does what [`demangle`] does with the flag [`DemangleFlags::FULL`]. Without that flag [`demangle`] reads a part of
/// these symbols, and its texts never change; those of this call can change with a version.
///
/// # Errors
///
/// Fails as [`demangle`] does.
///
/// ```
/// use msvc_demangler::{demangle_full, DemangleFlags};
///
/// let text = demangle_full("??R<lambda_0>@ns@@QEBA?A?<auto>@@H@Z", DemangleFlags::llvm())?;
/// assert_eq!(text, "public: <auto> __cdecl ns::<lambda_0>::operator()(int) const");
/// # Ok::<(), msvc_demangler::Error>(())
/// ```
pub fn demangle_full(input: &str, flags: DemangleFlags) -> Result<String> {
    demangle(input, flags | DemangleFlags::FULL)
}

/// Does what [`demangle`] does, under other limits, and for bytes too, as an object file has them.
///
/// A call takes up to 100 bytes of stack a node, and 16,000 more, so a thread with a small stack needs fewer `nodes`.
/// `usize::MAX` is no limit: this is unsafe for symbols that are not trusted. Without a limit on `nodes` a symbol that
/// nests deeply overflows the stack, which ends the process. Without one on `bytes` a short symbol can have a
/// declaration that takes all memory.
///
/// # Errors
///
/// Fails as [`demangle`] does, and if `input` is not UTF-8.
///
/// ```
/// use msvc_demangler::{demangle_within, DemangleFlags, Limit};
///
/// let flags = DemangleFlags::llvm();
/// assert_eq!(demangle_within(b"?x@ns@@3HA", flags, 100, 9)?, "int ns::x");
///
/// let error = demangle_within("?x@ns@@3HA", flags, 100, 8).unwrap_err();
/// assert_eq!(error.limit(), Some(Limit::Bytes));
/// # Ok::<(), msvc_demangler::Error>(())
/// ```
pub fn demangle_within(input: impl AsRef<[u8]>, flags: DemangleFlags, nodes: usize, bytes: usize) -> Result<String> {
    let input = input.as_ref();
    let usual = (4 * input.len() + 128).min(65_536);
    let (result, text) = whole(usual, |out| library::demangle(input, flags.bits(), nodes, bytes, out));
    let text = String::from_utf8(text).expect("declarations and messages are UTF-8");
    if result.status == library::OK {
        Ok(text)
    } else {
        Err(Error::new(result, text))
    }
}

/// Returns how many bytes of `input` the symbol takes that it begins with, under [`DEFAULT_NODE_LIMIT`].
///
/// # Errors
///
/// Fails as [`demangle`] does.
///
/// ```
/// assert_eq!(msvc_demangler::symbol_length("?x@@3HA and more")?, 7);
/// # Ok::<(), msvc_demangler::Error>(())
/// ```
pub fn symbol_length(input: &str) -> Result<usize> {
    symbol_length_within(input, DemangleFlags::COMPLETE, DEFAULT_NODE_LIMIT)
}

/// Does what [`symbol_length`] does, under another limit, and for bytes too. Of the flags [`DemangleFlags::FULL`] alone
/// matters.
///
/// # Errors
///
/// Fails as [`demangle_within`] does.
///
/// ```
/// use msvc_demangler::{symbol_length_within, DemangleFlags};
///
/// assert_eq!(symbol_length_within("?f@@YA?A?<auto>@@H@Z and more", DemangleFlags::FULL, 100)?, 20);
/// # Ok::<(), msvc_demangler::Error>(())
/// ```
pub fn symbol_length_within(input: impl AsRef<[u8]>, flags: DemangleFlags, nodes: usize) -> Result<usize> {
    let input = input.as_ref();
    let result = library::prefix(input, flags.bits(), nodes);
    match result.status {
        library::OK => Ok(result.length),
        library::OUT_OF_MEMORY => Err(Error::new(result, "out of memory".to_owned())),
        // This call has no message. Demangling fails too, and has one.
        _ => demangle_within(input, flags, nodes, DEFAULT_BYTE_LIMIT).map(|_| result.length),
    }
}

/// Returns `text` with each symbol inside it replaced by its declaration. All other bytes stay, and so does a symbol
/// that exceeds a default limit.
///
/// # Panics
///
/// Panics if memory runs out.
///
/// ```
/// use msvc_demangler::{filter, DemangleFlags};
///
/// assert_eq!(filter(b"undefined: ?x@ns@@3HA", DemangleFlags::llvm()), b"undefined: int ns::x");
/// ```
pub fn filter(text: &[u8], flags: DemangleFlags) -> Vec<u8> {
    let (result, filtered) = whole(text.len() + 256, |out| library::filter(text, flags.bits(), out));
    assert_eq!(result.status, library::OK, "out of memory");
    filtered
}

/// Returns the result of a call and the whole text that it writes. The first buffer has this size.
fn whole(mut size: usize, call: impl Fn(&mut [u8]) -> library::CallResult) -> (library::CallResult, Vec<u8>) {
    loop {
        let mut out = vec![0; size];
        let result = call(&mut out);
        if result.length < size {
            out.truncate(result.length);
            return (result, out);
        }
        size = result.length + 1;
    }
}
