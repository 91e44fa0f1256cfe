//! The calls of libmsvc_demangler, over slices. Its header, msvc_demangler.h, describes them.
#![allow(unsafe_code)]

pub const OK: u32 = 0;
pub const OUT_OF_MEMORY: u32 = 3;
pub const TOO_MANY_NODES: u32 = 4;
pub const TOO_LONG: u32 = 5;

/// `struct msvc_demangler_result`.
#[repr(C)]
pub struct CallResult {
    pub status: u32,
    pub offset: usize,
    pub length: usize,
}

extern "C" {
    fn msvc_demangler_demangle(
        symbol: *const u8,
        length: usize,
        flags: u32,
        max_nodes: usize,
        max_bytes: usize,
        out: *mut u8,
        size: usize,
    ) -> CallResult;

    fn msvc_demangler_prefix(symbol: *const u8, length: usize, flags: u32, max_nodes: usize) -> CallResult;

    fn msvc_demangler_filter(text: *const u8, length: usize, flags: u32, out: *mut u8, size: usize) -> CallResult;
}

/// Demangles a symbol into `out`.
pub fn demangle(symbol: &[u8], flags: u32, max_nodes: usize, max_bytes: usize, out: &mut [u8]) -> CallResult {
    let (from, length, to, size) = (symbol.as_ptr(), symbol.len(), out.as_mut_ptr(), out.len());
    // SAFETY: both pointers are those of slices of these lengths, which don't overlap.
    unsafe { msvc_demangler_demangle(from, length, flags, max_nodes, max_bytes, to, size) }
}

/// Measures a symbol.
pub fn prefix(symbol: &[u8], flags: u32, max_nodes: usize) -> CallResult {
    // SAFETY: the pointer is that of a slice of this length.
    unsafe { msvc_demangler_prefix(symbol.as_ptr(), symbol.len(), flags, max_nodes) }
}

/// Filters a text into `out`.
pub fn filter(text: &[u8], flags: u32, out: &mut [u8]) -> CallResult {
    // SAFETY: both pointers are those of slices of these lengths, which don't overlap.
    unsafe { msvc_demangler_filter(text.as_ptr(), text.len(), flags, out.as_mut_ptr(), out.len()) }
}
