//! Prints the address and the declaration of each symbol in a linker's map: of a line such as
//! ` 0001:00000010       ?f@ns@@YAHPEBDH@Z          0000000140001010 f   a.obj` it prints
//! `0000000140001010 int __cdecl ns::f(char const *, int)`. Lines without a symbol are left out.
//!
//! One demangler is kept for all lines, so most of them request no memory. A map is untrusted, so a symbol is shown
//! as it came if it exceeds the default limits.
#![tactic(auto)]

use msvc_demangler::{DEFAULT_BYTE_LIMIT, DEFAULT_NODE_LIMIT, DemangleFlags, Demangler};
use std::alloc::Global;
use std::io::{self, BufRead, BufReader, BufWriter, Write};

fn main(rt: HostRuntime) -> io::Result<()> {
    let input = BufReader::new(rt.alloc(), rt.reader())?;
    let mut out = BufWriter::new(rt.alloc(), io::writer(&rt))?;
    print_all(rt.alloc(), input, &mut out)?;
    out.flush()
}

/// Prints the address and the declaration of each line that has a symbol.
fn print_all<R: BufRead + Drop, W: Write>(alloc: Global, input: R, out: &mut W) -> io::Result<()> {
    let mut demangler = Demangler::new(alloc);
    for line in input.lines(alloc) {
        let line = line?;
        if let Some((symbol, address)) = symbol_of(line.as_str()) {
            print_symbol(&mut demangler, symbol, address, out)?;
        }
    }
    Ok(())
}

/// Prints an address and the declaration of a symbol, or the symbol if it has none within the limits.
fn print_symbol<W: Write>(
    demangler: &mut Demangler,
    symbol: &str,
    address: &str,
    out: &mut W,
) -> io::Result<()> {
    let flags = DemangleFlags::llvm();
    match demangler.demangle_within(symbol, flags, DEFAULT_NODE_LIMIT, DEFAULT_BYTE_LIMIT) {
        Ok(text) => writeln!(out, "{address} {text}"),
        Err(error) if error.is_out_of_memory() => Err(io::Error::from(io::ErrorKind::OutOfMemory)),
        Err(_) => writeln!(out, "{address} {symbol}"),
    }
}

/// Finds the symbol and the address of a line: its second word, if that begins with a question mark, and its third.
fn symbol_of(line: &str) -> Option<(&str, &str)> {
    let mut words = line.split_ascii_whitespace();
    let _section = words.next()?;
    let symbol = words.next()?;
    let address = words.next()?;
    if symbol.starts_with('?') {
        Some((symbol, address))
    } else {
        None
    }
}
