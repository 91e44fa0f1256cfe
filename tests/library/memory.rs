//! Allocates as many boxes as standard input has bytes, at most 64. tests/library/memory calls it first in the program.

use std::io::Read;

pub fn pad(rt: &HostRuntime) {
    let mut bytes = [0u8; 64];
    for _ in 0..rt.stdin().read(&mut bytes).unwrap_or(0) {
        let _ = Box::new(rt.alloc(), 0u8);
    }
}
