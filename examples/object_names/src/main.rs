//! Prints what `llvm-nm` prints, with each symbol as its declaration, in its column. A line whose last column is no
//! symbol of Microsoft's compiler, as `main` is none, stays as it came.
//!
//!     llvm-nm show.obj | object_names
//!
//! An object file is untrusted. So a symbol with more nodes, or a declaration with more bytes, than the default limits
//! allow stays as it came too.
#![tactic(auto)]

use msvc_demangler::{DEFAULT_BYTE_LIMIT, DEFAULT_NODE_LIMIT, DemangleFlags, demangle_within};
use std::alloc::{AllocError, Global};
use std::io::{self, BufRead, BufReader, BufWriter, Write};

fn main(rt: HostRuntime) -> io::Result<()> {
    let input = BufReader::new(rt.alloc(), rt.reader())?;
    let mut out = BufWriter::new(rt.alloc(), io::writer(&rt))?;
    print_all(rt.alloc(), input, &mut out)?;
    out.flush()
}

/// Prints each line, with its symbol as its declaration.
fn print_all<R: BufRead + Drop, W: Write>(alloc: Global, input: R, out: &mut W) -> io::Result<()> {
    for line in input.lines(alloc) {
        let line = line?;
        match declared(alloc, line.as_str())? {
            Some((columns, declaration)) => writeln!(out, "{columns} {declaration}")?,
            None => writeln!(out, "{line}")?,
        }
    }
    Ok(())
}

/// Returns the columns before the last one, and the declaration of the symbol there.
fn declared(alloc: Global, line: &str) -> Result<Option<(&str, String)>, AllocError> {
    let Some((columns, symbol)) = line.rsplit_once(' ') else {
        return Ok(None);
    };
    let flags = DemangleFlags::llvm();
    match demangle_within(alloc, symbol, flags, DEFAULT_NODE_LIMIT, DEFAULT_BYTE_LIMIT) {
        Ok(declaration) => Ok(Some((columns, declaration))),
        Err(error) if error.is_out_of_memory() => Err(AllocError),
        Err(_) => Ok(None),
    }
}
