//! Prints the frames of a crash report, with each symbol of Microsoft's compiler as its name alone: of
//! `game!?run@Engine@game@@QEAAXXZ+0x42` it prints `game!game::Engine::run+0x42`. All else stays as it came.
//!
//! A report is untrusted. So a symbol with more nodes, or a name with more bytes, than the default limits allow stays as it
//! came too.
#![tactic(auto)]

use msvc_demangler::{
    DEFAULT_BYTE_LIMIT, DEFAULT_NODE_LIMIT, DemangleFlags, Flags, demangle_within,
    symbol_length_within,
};
use std::alloc::{AllocError, Global};
use std::io::{self, BufRead, BufReader, BufWriter, Write};

fn main(rt: HostRuntime) -> io::Result<()> {
    let input = BufReader::new(rt.alloc(), rt.reader())?;
    let mut out = BufWriter::new(rt.alloc(), io::writer(&rt))?;
    print_all(rt.alloc(), input, &mut out)?;
    out.flush()
}

/// Prints each line, with its symbol as its name.
fn print_all<R: BufRead + Drop, W: Write>(alloc: Global, input: R, out: &mut W) -> io::Result<()> {
    for line in input.lines(alloc) {
        let line = line?;
        match named(alloc, line.as_str())? {
            Some(frame) => writeln!(out, "{}{}{}", frame.before, frame.name, frame.after)?,
            None => writeln!(out, "{line}")?,
        }
    }
    Ok(())
}

/// A frame that has a symbol.
#[derive(Drop)]
struct Frame<'a> {
    before: &'a str,
    /// The name of what the symbol declares, in its scope.
    name: String,
    after: &'a str,
}

/// The frame of a line, whose symbol begins with the first question mark. A line that has none, or in which what begins
/// there is rejected, is no such frame.
fn named(alloc: Global, line: &str) -> Result<Option<Frame<'_>>, AllocError> {
    let Some(start) = line.find('?') else {
        return Ok(None);
    };
    let Some((before, symbol)) = line.split_at_checked(start) else {
        return Ok(None);
    };
    let length = match symbol_length_within(alloc, symbol, DEFAULT_NODE_LIMIT) {
        Ok(length) => length,
        Err(error) if error.is_out_of_memory() => return Err(AllocError),
        Err(_) => return Ok(None),
    };
    let Some((symbol, after)) = symbol.split_at_checked(length) else {
        return Ok(None);
    };
    let flags = DemangleFlags::llvm().union(DemangleFlags::NAME_ONLY);
    match demangle_within(alloc, symbol, flags, DEFAULT_NODE_LIMIT, DEFAULT_BYTE_LIMIT) {
        Ok(name) => Ok(Some(Frame {
            before,
            name,
            after,
        })),
        Err(error) if error.is_out_of_memory() => Err(AllocError),
        Err(_) => Ok(None),
    }
}
