//! The program of tests/library/requests: a kept demangler reads as many of the symbols as standard input has bytes.
#![tactic(auto)]

use msvc_demangler::{DemangleFlags, Demangler, Grammar, Limits};
use std::io::{self, Read};

/// Symbols; the first needs at least as much memory as each other one.
const SYMBOLS: [&str; 8] = [
    "?f@?$basic_string@DU?$char_traits@D@std@@V?$allocator@D@2@@std@@QEAAAEAV12@PEBD_KAEBV12@@Z",
    "?x@@3PEAY1NKM@5HEA",
    "?f@ns@@YAHPEBDH@Z",
    "??0Base@@QEAA@XZ",
    "?x@@3PAYA@HA",
    "no symbol",
    "??_7Base@@6B@",
    "?f@?$basic_string@DU?$char_traits@D@std@@V?$allocator@D@2@@std@@QEAAAEAV12@PEBD_KAEBV12@@Z",
];

fn main(rt: HostRuntime) -> io::Result<()> {
    let mut demangler = Demangler::new(rt.alloc());
    let mut bytes = [0u8; 64];
    let count = rt.stdin().read(&mut bytes)?;
    for symbol in &SYMBOLS[..count.min(SYMBOLS.len())] {
        let flags = DemangleFlags::llvm();
        let limits = Limits::none();
        let _ = demangler.declaration(Grammar::Crate, symbol, flags, limits).is_ok();
    }
    Ok(())
}
