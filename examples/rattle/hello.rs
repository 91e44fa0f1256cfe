//! Prints the declaration of a symbol.
#![tactic(auto)]

use msvc_demangler::{DEFAULT_BYTE_LIMIT, DEFAULT_NODE_LIMIT, DemangleFlags, demangle_within};
use std::io;

fn main(rt: HostRuntime) -> io::Result<()> {
    let flags = DemangleFlags::llvm();
    match demangle_within(rt.alloc(), "?x@ns@@3HB", flags, DEFAULT_NODE_LIMIT, DEFAULT_BYTE_LIMIT) {
        Ok(text) => println!(rt; "{text}"),
        Err(error) => println!(rt; "error: {error}"),
    }
}
