//! Measures the time of the Rust crate for names, in one process: `upstream ROUNDS` with the names as lines of standard
//! input does what `msvc_bench measure ROUNDS` does with our library. `measure/run` builds it if that crate is
//! available.

use msvc_demangler::{demangle, DemangleFlags};
use std::io;
use std::time::{Duration, Instant};

fn main() -> io::Result<()> {
    let names = io::stdin().lines().collect::<io::Result<Vec<String>>>()?;
    let rounds = std::env::args().nth(1).and_then(|word| word.parse().ok()).unwrap_or(0);
    if rounds == 0 {
        print_demangled(&names);
    } else {
        measure(&names, rounds);
    }
    Ok(())
}

/// Prints the names that have a text, a line each.
fn print_demangled(names: &[String]) {
    for name in names {
        if demangle(name, DemangleFlags::llvm()).is_ok() {
            println!("{name}");
        }
    }
}

/// Demangles all names in each round; prints the nanoseconds of the fastest round and the bytes of its texts.
fn measure(names: &[String], rounds: u64) {
    let mut fastest = Duration::MAX;
    let mut bytes = 0;
    for _ in 0..rounds {
        let start = Instant::now();
        bytes = length_of_texts(names);
        fastest = fastest.min(start.elapsed());
    }
    println!("{} {bytes}", fastest.as_nanos());
}

/// Makes one round. Returns the bytes of the texts of all names.
fn length_of_texts(names: &[String]) -> usize {
    let texts = names.iter().filter_map(|name| demangle(name, DemangleFlags::llvm()).ok());
    texts.map(|text| text.len()).sum()
}
