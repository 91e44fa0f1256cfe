//! Returns a tree that outlives the text that its names borrow, which the compiler must reject.

use msvc_demangler::{Error, ParseResult, parse};
use std::alloc::Global;

pub fn outlives<'a>(alloc: Global) -> Result<ParseResult<'a>, Error> {
    let text = String::from_str(alloc, "?x@@3HA")?;
    parse(alloc, text.as_str())
}
