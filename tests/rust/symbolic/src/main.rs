//! Demangles a symbol by symbolic-demangle, whose code is written for the original crate. `test` restores its feature
//! `msvc`, and wants `void f(A, int)` and `f`.

use symbolic_common::Name;
use symbolic_demangle::{Demangle, DemangleOptions};

fn main() {
    for options in [DemangleOptions::complete(), DemangleOptions::name_only()] {
        println!("{}", Name::from("?f@@YAXVA@@H@Z").try_demangle(options));
    }
}
