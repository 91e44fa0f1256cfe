//! Walks the trees of symbols, one a line: prints the names of a symbol's scope, the outermost first, and its
//! unqualified name, each with the arguments of a template below it. A symbol of more than 1,000 nodes is rejected.
#![tactic(auto)]

use msvc_demangler::{Name, Operator, Symbol, Type, parse_within};
use std::alloc::Global;
use std::io::{self, BufRead, BufReader, BufWriter, Write};

/// How many nodes a tree has at most.
const MOST_NODES: usize = 1_000;

fn main(rt: HostRuntime) -> io::Result<()> {
    let input = BufReader::new(rt.alloc(), rt.reader())?;
    let mut out = BufWriter::new(rt.alloc(), io::writer(&rt))?;
    print_all(rt.alloc(), input, &mut out)?;
    out.flush()
}

/// Prints each line, and below it the names of its symbol.
fn print_all<R: BufRead + Drop, W: Write>(alloc: Global, input: R, out: &mut W) -> io::Result<()> {
    for line in input.lines(alloc) {
        let line = line?;
        writeln!(out, "{line}")?;
        match parse_within(alloc, line.as_str(), MOST_NODES) {
            Ok(tree) => put_names(out, &tree.symbol)?,
            Err(error) => writeln!(out, "  error: {error}")?,
        }
    }
    Ok(())
}

/// Prints the names of a symbol.
fn put_names<W: Write>(out: &mut W, symbol: &Symbol<'_>) -> io::Result<()> {
    for scope in symbol.scope.names.iter().rev() {
        put_name(out, "scope", scope)?;
    }
    put_name(out, "name", &symbol.name)
}

/// Prints a name on a line, and below it the arguments of a template.
fn put_name<W: Write>(out: &mut W, role: &str, name: &Name<'_>) -> io::Result<()> {
    write!(out, "  {role} ")?;
    put_word(out, name)?;
    out.write_all(b"\n")?;
    let Name::Template(_, arguments) = name else {
        return Ok(());
    };
    for argument in &arguments.types {
        out.write_all(b"    argument ")?;
        put_type(out, argument)?;
        out.write_all(b"\n")?;
    }
    Ok(())
}

/// Prints a name, without the arguments of a template.
fn put_word<W: Write>(out: &mut W, name: &Name<'_>) -> io::Result<()> {
    match name {
        Name::NonTemplate(bytes) => out.write_all(bytes),
        Name::Template(template, _) => put_word(out, template),
        Name::AnonymousNamespace(_) => out.write_all(b"(anonymous)"),
        Name::Operator(Operator::Ctor) => out.write_all(b"(constructor)"),
        Name::Operator(_) => out.write_all(b"(operator)"),
        _ => out.write_all(b"(made by the compiler)"),
    }
}

/// Prints what a type is, and of a class its name.
fn put_type<W: Write>(out: &mut W, argument: &Type<'_>) -> io::Result<()> {
    match argument {
        Type::Class(symbol, _) => put_class(out, "class", symbol),
        Type::Struct(symbol, _) => put_class(out, "struct", symbol),
        Type::Enum(symbol, _) => put_class(out, "enum", symbol),
        Type::Constant(number) => write!(out, "number {number}"),
        Type::Int(_) => out.write_all(b"int"),
        Type::Ptr(target, _) => {
            out.write_all(b"pointer to ")?;
            put_type(out, target)
        }
        _ => out.write_all(b"another type"),
    }
}

/// Prints the kind of a class, and its name in its scope.
fn put_class<W: Write>(out: &mut W, kind: &str, symbol: &Symbol<'_>) -> io::Result<()> {
    write!(out, "{kind} ")?;
    for scope in symbol.scope.names.iter().rev() {
        put_word(out, scope)?;
        out.write_all(b"::")?;
    }
    put_word(out, &symbol.name)
}
