// MSVC_DEMANGLER_LIB_DIR=FOLDER cargo run
use msvc_demangler::{demangle_full, DemangleFlags, Error};

fn main() -> Result<(), Error> {
    let text = demangle_full("?x@ns@@3HA", DemangleFlags::llvm())?;
    println!("{text}");
    Ok(())
}
