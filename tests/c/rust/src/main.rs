//! Compares the crate over the C library with rows, as rows.c does with the library.

use msvc_demangler::{demangle_within, DemangleFlags};
use std::io::{self, BufRead};

/// No limit: unsafe for symbols that are not trusted.
const UNLIMITED: usize = usize::MAX;

fn agrees(row: &[u8]) -> Option<bool> {
    let mut fields = row.splitn(4, |byte| *byte == b'\t');
    let bits = u32::from_str_radix(std::str::from_utf8(fields.next()?).ok()?, 16).ok()?;
    let flags = DemangleFlags::from_bits_retain(bits);
    let result = demangle_within(fields.next()?, flags, UNLIMITED, UNLIMITED);
    let is_ok = fields.next()? == b"ok";
    let wanted = std::str::from_utf8(fields.next()?).ok()?;
    if is_ok {
        return Some(result.as_deref() == Ok(wanted));
    }
    let error = result.err()?;
    let (offset, message) = wanted.split_once('\t')?;
    Some(error.offset() == offset.parse().ok() && error.to_string().starts_with(message))
}

fn main() -> io::Result<()> {
    let (mut agree, mut differ) = (0, 0);
    for line in io::stdin().lock().split(b'\n') {
        let line = line?;
        if line.starts_with(b"# ") {
            continue;
        }
        if agrees(&line) == Some(true) {
            agree += 1;
        } else {
            differ += 1;
            println!("{}", String::from_utf8_lossy(&line));
        }
    }
    println!("{agree} rows agree, {differ} differ");
    std::process::exit(i32::from(differ != 0))
}
