//! Makes the calls that allocate, in runs in which one allocation fails. tests/library/allocation-failures adds RUNS,
//! the calls of each case, and FAILING, the number of the allocation that fails, and compares what the runs print. A
//! run ends at the call that returns the error for memory, and prints its name.

use msvc_demangler::{
    BackReference, DemangleFlags, Demangler, Error, Failure, Fault, Grammar, Limit, Limits, ParseResult, Watched,
    back_references, demangle, demangle_within, filter_slice, filter_slice_in, filter_text, filter_text_in, parse,
    parse_prefix, parse_within, serialize, symbol_length, symbol_length_within, undname_lines,
};
use std::alloc::{AllocError, Global};
use std::fmt;
use std::fmt::{Display, Write};

/// More bytes than a run over lines writes.
const CAPACITY: usize = 256;

/// More nodes than the tree of any symbol that is used for all calls.
const NODES: usize = 1000;

/// A symbol, a line that is no symbol, one that is not UTF-8, and one without a line feed.
const LINES: &[u8] = b"?x@@3HA\r\nnope\n\xFF\n?f@@";

const TEXT: &[u8] = b"int x\nnope\nf\n";

const ERRORS: &[u8] = b"error: does not start with b'?' (offset: 0, remaining: \"nope\")\n";

/// A line with a symbol, one without a symbol that is not UTF-8, and one without a line feed.
const UNFILTERED: &[u8] = b"a!?x@@3HA+1\r\n?y \xFF\n(?f@@YAXXZ";

const FILTERED: &[u8] = b"a!int x+1\r\n?y \xFF\n(void __cdecl f(void)";

/// A symbol, and the usual results of its calls.
struct Row<'a> {
    symbol: &'a str,
    /// The number of bytes that are read; empty if the symbol is rejected.
    length: &'a str,
    /// Its declaration without flags, or its error.
    text: &'a str,
    /// Its digits that were read as whole parameters.
    digits: &'a str,
}

unsafe extern "C" {
    /// Copies this process. Returns 0 in the copy, and the number of the copy in this process.
    safe fn fork() -> i32;

    /// Waits for the end of the process with this number, and writes its status.
    safe fn waitpid(process: i32, status: &mut i32, options: i32) -> i32;

    /// Ends this process.
    safe fn _exit(status: i32);
}

/// Runs a case in a separate process. This process allocates nothing, so that each run counts from the same number.
#[cfg(test)]
fn run(rt: &HostRuntime, case: u32, boxes: u32) {
    let _ = println!(rt; "run {case}");
    let process = fork();
    if process == 0 {
        take_boxes(rt, boxes);
        end(rt, calls(rt, case));
        _exit(0);
    }
    let mut status = 0;
    if process < 0 || waitpid(process, &mut status, 0) != process || status != 0 {
        let _ = println!(rt; "did not end, status {status}");
    }
}

#[cfg(test)]
mod tests {
    use super::{FAILING, RUNS, run};

    #[test]
    fn each_request(rt: HostRuntime) {
        for (case, first, last) in RUNS {
            for fewer in first..=last {
                run(&rt, case, FAILING - fewer);
            }
        }
    }
}

/// Allocates boxes, and frees each at once, at the beginning of a run.
fn take_boxes(rt: &HostRuntime, boxes: u32) {
    for _ in 0..boxes {
        let _ = Box::new(rt.alloc(), 0u8);
    }
}

/// Makes the allocation that fails, so that all later ones of a test succeed.
pub fn ample(rt: &HostRuntime) {
    take_boxes(rt, FAILING);
}

/// Allocates a box after calls without a failure, at the end of a run, and prints a line if that fails. This separates
/// a run whose last call ignores a failure from a run without a failure.
fn end(rt: &HostRuntime, calls: Result<(), AllocError>) {
    if calls.is_ok() && Box::new(rt.alloc(), 0u8).is_err() {
        let _ = println!(rt; "the end");
    }
}

/// Prints the name of a call whose result is wrong.
fn check(rt: &HostRuntime, name: &str, right: bool) {
    if !right {
        let _ = println!(rt; "{name} returns a wrong result");
    }
}

/// Prints the name of a call that returns the error for memory. Compares any other result with the row.
fn compare<T: Drop>(
    rt: &HostRuntime,
    name: &str,
    row: &Row<'_>,
    outcome: Result<T, Error>,
    is_right: impl Fn(&T) -> bool + Drop,
) -> Result<Option<T>, AllocError> {
    let right = match &outcome {
        Ok(given) => !row.length.is_empty() && is_right(given),
        Err(error) => {
            stop_without_memory(rt, name, error)?;
            row.length.is_empty() && prints(error, row.text)
        }
    };
    check(rt, name, right);
    Ok(outcome.ok())
}

/// Prints the name of a call whose error is that for memory, and fails then.
fn stop_without_memory(rt: &HostRuntime, name: &str, error: &Error) -> Result<(), AllocError> {
    if !error.is_out_of_memory() {
        return Ok(());
    }
    let _ = println!(rt; "{name}");
    Err(AllocError)
}

/// Makes all calls on a symbol.
fn every(rt: &HostRuntime, row: &Row<'_>) -> Result<(), AllocError> {
    message(rt, row)?;
    declaration(rt, row)?;
    digits(rt, row)?;
    tree(rt, row)?;
    prefix(rt, row)?;
    within(rt, row)
}

fn message(rt: &HostRuntime, row: &Row<'_>) -> Result<(), AllocError> {
    let error = Error::new(rt.alloc(), row.symbol);
    stop_without_memory(rt, "Error::new", &error)?;
    check(rt, "Error::new", prints(&error, row.symbol));
    Ok(())
}

fn declaration(rt: &HostRuntime, row: &Row<'_>) -> Result<(), AllocError> {
    let text = demangle(rt.alloc(), row.symbol, DemangleFlags::COMPLETE);
    compare(rt, "demangle", row, text, |text| text.as_str() == row.text)?;
    Ok(())
}

fn digits(rt: &HostRuntime, row: &Row<'_>) -> Result<(), AllocError> {
    let found = back_references(rt.alloc(), row.symbol);
    compare(rt, "back_references", row, found, |found| lists(found, row.digits))?;
    Ok(())
}

fn tree(rt: &HostRuntime, row: &Row<'_>) -> Result<(), AllocError> {
    let tree = parse(rt.alloc(), row.symbol);
    let Some(tree) = compare(rt, "parse", row, tree, |_| true)? else {
        return Ok(());
    };
    printed(rt, row, &tree)?;
    let copy = copied(rt.alloc(), &tree);
    compare(rt, "clone", row, copy, |copy| *copy == tree)?;
    Ok(())
}

fn prefix(rt: &HostRuntime, row: &Row<'_>) -> Result<(), AllocError> {
    let prefix = parse_prefix(rt.alloc(), row.symbol);
    match compare(rt, "parse_prefix", row, prefix, |prefix| prints(&prefix.1, row.length))? {
        Some((tree, _)) => printed(rt, row, &tree),
        None => Ok(()),
    }
}

/// Makes both calls that measure a symbol.
fn lengths(rt: &HostRuntime, row: &Row<'_>) -> Result<(), AllocError> {
    let any = symbol_length(rt.alloc(), row.symbol);
    compare(rt, "symbol_length", row, any, |bytes| prints(bytes, row.length))?;
    let limited = symbol_length_within(rt.alloc(), row.symbol, NODES);
    compare(rt, "symbol_length_within", row, limited, |bytes| prints(bytes, row.length))?;
    Ok(())
}

/// Makes both calls with a limit that allows all nodes.
fn within(rt: &HostRuntime, row: &Row<'_>) -> Result<(), AllocError> {
    let text = demangle_within(rt.alloc(), row.symbol, DemangleFlags::COMPLETE, NODES, row.text.len());
    compare(rt, "demangle_within", row, text, |text| text.as_str() == row.text)?;
    let tree = parse_within(rt.alloc(), row.symbol, NODES);
    compare(rt, "parse_within", row, tree, |_| true)?;
    Ok(())
}

/// Makes both calls with a limit that does not allow all nodes.
fn limited(rt: &HostRuntime, symbol: &str, nodes: usize) -> Result<(), AllocError> {
    let text = demangle_within(rt.alloc(), symbol, DemangleFlags::COMPLETE, nodes, usize::MAX);
    wants_nodes(rt, "demangle_within", text.err())?;
    let tree = parse_within(rt.alloc(), symbol, nodes);
    wants_nodes(rt, "parse_within", tree.err())
}

/// Prints the name of a call that returns the error for memory. Any other error must be that for nodes.
fn wants_nodes(rt: &HostRuntime, name: &str, error: Option<Error>) -> Result<(), AllocError> {
    if let Some(error) = &error {
        stop_without_memory(rt, name, error)?;
    }
    check(rt, name, error.is_some_and(|error| begins(&error, "more nodes than allowed")));
    Ok(())
}

/// Calls `parse` on a symbol whose tree has too many allocations to let each fail.
fn large_tree(rt: &HostRuntime, symbol: &str) -> Result<(), AllocError> {
    match parse(rt.alloc(), symbol) {
        Ok(_) => Ok(()),
        Err(error) => stop_without_memory(rt, "parse", &error),
    }
}

fn printed(rt: &HostRuntime, row: &Row<'_>, tree: &ParseResult<'_>) -> Result<(), AllocError> {
    let text = serialize(rt.alloc(), tree, DemangleFlags::COMPLETE);
    compare(rt, "serialize", row, text, |text| text.as_str() == row.text)?;
    Ok(())
}

fn copied<'a>(alloc: Global, tree: &ParseResult<'a>) -> Result<ParseResult<'a>, Error> {
    Ok(tree.clone(alloc)?)
}

/// The rest of an expected text, compared while a value is written, without an allocation.
#[derive(Drop)]
struct Awaited<'a> {
    rest: &'a str,
}

impl Write for Awaited<'_> {
    fn write_str(&mut self, part: &str) -> fmt::Result {
        self.rest = self.rest.strip_prefix(part).ok_or(fmt::Error)?;
        Ok(())
    }
}

/// Returns whether a value prints this text.
fn prints<T: Display>(value: &T, text: &str) -> bool {
    let mut awaited = Awaited { rest: text };
    write!(awaited, "{value}").is_ok() && awaited.rest.is_empty()
}

/// Returns whether a value prints a text that begins with this one.
fn begins<T: Display>(value: &T, text: &str) -> bool {
    let mut awaited = Awaited { rest: text };
    let _ = write!(awaited, "{value}");
    awaited.rest.is_empty()
}

/// Returns whether these are the digits: for each its place, and start and end of the bytes that it stands for.
fn lists(found: &[BackReference], digits: &str) -> bool {
    let mut awaited = Awaited { rest: digits };
    for digit in found {
        let (at, start, end) = (digit.at, digit.start, digit.end);
        if write!(awaited, "({at}, {start}, {end})").is_err() {
            return false;
        }
    }
    awaited.rest.is_empty()
}

/// Runs over lines, into vectors of sufficient capacity. Compares the output after an allocation failure too.
fn lines(rt: &HostRuntime) -> Result<(), AllocError> {
    let mut input = Watched::new(LINES);
    let mut out = Watched::new(buffer(rt)?);
    let mut err = Watched::new(buffer(rt)?);
    let done = undname_lines(rt.alloc(), &mut input, &mut out, &mut err, false);
    check(rt, "failed", !input.failed() && !out.failed() && !err.failed());
    let (out, err) = (out.into_inner(), err.into_inner());
    if done == Err(Fault::Memory) {
        let _ = println!(rt; "undname_lines");
        check(rt, "undname_lines", begins_with_lines(TEXT, &out) && begins_with_lines(ERRORS, &err));
        return Err(AllocError);
    }
    check(rt, "undname_lines", done == Ok(()) && *out == *TEXT && *err == *ERRORS);
    Ok(())
}

/// Runs over a text, likewise: without a demangler for the crate's grammar, and with one for Full.
fn filter(rt: &HostRuntime, grammar: Grammar) -> Result<(), AllocError> {
    let mut input = Watched::new(UNFILTERED);
    let mut out = Watched::new(buffer(rt)?);
    let mut demangler = Demangler::with_grammar(rt.alloc(), grammar);
    let flags = DemangleFlags::llvm();
    let (name, done) = match grammar {
        Grammar::Crate => ("filter_text", filter_text(rt.alloc(), &mut input, &mut out, flags)),
        Grammar::Full => ("full.filter_text_in", filter_text_in(&mut demangler, &mut input, &mut out, flags)),
    };
    check(rt, "failed", !input.failed() && !out.failed());
    let out = out.into_inner();
    if done == Err(Fault::Memory) {
        let _ = println!(rt; "{name}");
        check(rt, name, begins_with_lines(FILTERED, &out));
        check(rt, name, demangler.demangle("?x@@3HA", flags).is_ok());
        return Err(AllocError);
    }
    check(rt, name, done == Ok(()) && *out == *FILTERED);
    Ok(())
}

/// Calls a kept demangler: after an allocation failure the next call succeeds.
fn kept(rt: &HostRuntime, grammar: Grammar, symbol: &str) -> Result<(), AllocError> {
    let mut demangler = Demangler::with_grammar(rt.alloc(), grammar);
    let flags = DemangleFlags::COMPLETE;
    match demangler.demangle(symbol, flags) {
        Ok(_) => Ok(()),
        Err(error) => {
            check(rt, "Demangler", demangler.demangle(symbol, flags).is_ok());
            stop_without_memory(rt, "Demangler", &error)
        }
    }
}

/// Filters a slice, likewise.
fn slice(rt: &HostRuntime, grammar: Grammar) -> Result<(), AllocError> {
    let mut out = [0; CAPACITY];
    let mut demangler = Demangler::with_grammar(rt.alloc(), grammar);
    let flags = DemangleFlags::llvm();
    let (name, done) = match grammar {
        Grammar::Crate => ("filter_slice", filter_slice(rt.alloc(), UNFILTERED, flags, &mut out)),
        Grammar::Full => ("full.filter_slice_in", filter_slice_in(&mut demangler, UNFILTERED, flags, &mut out)),
    };
    let Ok(filtered) = done else {
        let _ = println!(rt; "{name}");
        check(rt, name, demangler.demangle("?x@@3HA", flags).is_ok());
        return Err(AllocError);
    };
    let written = &out[..filtered.written];
    check(rt, name, filtered.length == FILTERED.len() && written == FILTERED);
    Ok(())
}

/// Makes each call of a demangler of Full on a symbol, by one without memory each.
fn full(rt: &HostRuntime, row: &Row<'_>) -> Result<(), AllocError> {
    full_text(rt, row)?;
    full_text_within(rt, row)?;
    full_length(rt, row)?;
    full_declaration(rt, row)?;
    full_declare(rt, row)?;
    full_measure(rt, row)?;
    full_digits(rt, row)
}

fn full_text(rt: &HostRuntime, row: &Row<'_>) -> Result<(), AllocError> {
    let mut demangler = Demangler::with_grammar(rt.alloc(), Grammar::Full);
    let text = demangler.demangle(row.symbol, DemangleFlags::COMPLETE);
    let done = ended(compare(rt, "full.demangle", row, text, |text| *text == row.text));
    again(rt, &mut demangler, row, done)
}

fn full_text_within(rt: &HostRuntime, row: &Row<'_>) -> Result<(), AllocError> {
    let mut demangler = Demangler::with_grammar(rt.alloc(), Grammar::Full);
    let text = demangler.demangle_within(row.symbol, DemangleFlags::COMPLETE, NODES, row.text.len());
    let done = ended(compare(rt, "full.demangle_within", row, text, |text| *text == row.text));
    again(rt, &mut demangler, row, done)
}

fn full_length(rt: &HostRuntime, row: &Row<'_>) -> Result<(), AllocError> {
    let mut demangler = Demangler::with_grammar(rt.alloc(), Grammar::Full);
    let bytes = demangler.symbol_length_within(row.symbol, NODES);
    let done = ended(compare(rt, "full.symbol_length_within", row, bytes, |bytes| prints(bytes, row.length)));
    again(rt, &mut demangler, row, done)
}

fn full_declaration(rt: &HostRuntime, row: &Row<'_>) -> Result<(), AllocError> {
    let mut demangler = Demangler::with_grammar(rt.alloc(), Grammar::Full);
    let limits = Limits::new(NODES, row.text.len());
    let text = demangler.declaration(Grammar::Full, row.symbol, DemangleFlags::COMPLETE, limits);
    let text = with_error(rt, row, text);
    let done = ended(compare(rt, "full.declaration", row, text, |text| *text == row.text));
    again(rt, &mut demangler, row, done)
}

fn full_declare(rt: &HostRuntime, row: &Row<'_>) -> Result<(), AllocError> {
    let mut demangler = Demangler::with_grammar(rt.alloc(), Grammar::Full);
    let limits = Limits::new(NODES, row.text.len());
    let bytes = demangler.declare(Grammar::Full, row.symbol, DemangleFlags::COMPLETE, limits);
    let bytes = with_error(rt, row, bytes);
    let declared = demangler.declared() == row.text.as_bytes();
    let done = ended(compare(rt, "full.declare", row, bytes, |bytes| declared && prints(bytes, row.length)));
    again(rt, &mut demangler, row, done)
}

fn full_measure(rt: &HostRuntime, row: &Row<'_>) -> Result<(), AllocError> {
    let mut demangler = Demangler::with_grammar(rt.alloc(), Grammar::Full);
    let bytes = demangler.measure(Grammar::Full, row.symbol, Limits::new(NODES, row.text.len()));
    let bytes = with_error(rt, row, bytes);
    let done = ended(compare(rt, "full.measure", row, bytes, |bytes| prints(bytes, row.length)));
    again(rt, &mut demangler, row, done)
}

fn full_digits(rt: &HostRuntime, row: &Row<'_>) -> Result<(), AllocError> {
    let mut demangler = Demangler::with_grammar(rt.alloc(), Grammar::Full);
    let found = demangler.back_references(row.symbol);
    let done = ended(compare(rt, "full.back_references", row, found, |found| lists(found, row.digits)));
    again(rt, &mut demangler, row, done)
}

/// Converts the failure of a call to its error.
fn with_error<T: Drop>(rt: &HostRuntime, row: &Row<'_>, outcome: Result<T, Failure>) -> Result<T, Error> {
    match outcome {
        Ok(given) => Ok(given),
        Err(failure) => Err(failure.error(rt.alloc(), row.symbol)),
    }
}

/// Drops what a call returned, which may borrow from its demangler. Fails if the call ran out of memory.
fn ended<T: Drop>(outcome: Result<Option<T>, AllocError>) -> Result<(), AllocError> {
    match outcome {
        Ok(_) => Ok(()),
        Err(error) => Err(error),
    }
}

/// Calls a demangler again after an allocation failure: it returns the usual result.
fn again(
    rt: &HostRuntime,
    demangler: &mut Demangler,
    row: &Row<'_>,
    done: Result<(), AllocError>,
) -> Result<(), AllocError> {
    if done.is_err() {
        let right = match demangler.demangle(row.symbol, DemangleFlags::COMPLETE) {
            Ok(text) => text == row.text,
            Err(error) => row.length.is_empty() && prints(&error, row.text),
        };
        check(rt, "Demangler", right);
    }
    done
}

/// Prints a declaration that exceeds the limit on bytes.
fn too_long(rt: &HostRuntime) -> Result<(), AllocError> {
    let text = demangle_within(rt.alloc(), "?x@@3HA", DemangleFlags::COMPLETE, NODES, 4);
    let Some(error) = text.err() else {
        check(rt, "demangle_within", false);
        return Ok(());
    };
    stop_without_memory(rt, "demangle_within", &error)?;
    check(rt, "demangle_within", error.limit() == Some(Limit::Bytes) && begins(&error, "longer than allowed"));
    Ok(())
}

/// Allocates a vector that a run over lines need not make longer.
fn buffer(rt: &HostRuntime) -> Result<Vec<u8>, AllocError> {
    let buffer = Vec::with_capacity(rt.alloc(), CAPACITY);
    if buffer.is_err() {
        let _ = println!(rt; "buffer");
    }
    buffer
}

/// Returns whether a text begins with these whole lines.
fn begins_with_lines(text: &[u8], lines: &[u8]) -> bool {
    text.starts_with(lines) && (lines.is_empty() || lines.ends_with(b"\n"))
}
