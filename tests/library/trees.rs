//! Tests the debug text of trees.

#[cfg(test)]
mod tests {
    use crate::ample;
    use msvc_demangler::{Error, Flags, StorageClass, parse};
    use std::alloc::{AllocError, Global};
    use std::test::Fail;

    /// A symbol, and the debug text of its tree: each set by its bits, after the text before it, and the rest.
    struct Row {
        symbol: &'static str,
        sets: &'static [(&'static str, u32)],
        rest: &'static str,
    }

    /// Rows by hand: the form that `#[derive(Debug)]` gives the trees of the reference. It has no form for a set.
    const ROWS: [Row; 4] = [
        Row {
            symbol: "?x@@3PEBVA@@EB",
            sets: &[
                (
                    "ParseResult { symbol: Symbol { name: NonTemplate([120]), scope: NameSequence { names: [] } }, \
                     symbol_type: Var(Ptr(Class(Symbol { name: NonTemplate([65]), \
                     scope: NameSequence { names: [] } }, ",
                    65,
                ),
                ("), ", 0),
                ("), Global, ", 4),
            ],
            rest: ") }",
        },
        Row {
            symbol: "?f@@YAXHZZ",
            sets: &[
                (
                    "ParseResult { symbol: Symbol { name: NonTemplate([102]), scope: NameSequence { names: [] } }, \
                     symbol_type: NonMemberFunction(Cdecl, Params { types: [Int(",
                    0,
                ),
                ("), VarArgs] }, ", 0),
                (", Void(", 0),
            ],
            rest: ")) }",
        },
        Row {
            symbol: "??_R1A@?0A@EA@U@i@@8",
            sets: &[],
            rest: "ParseResult { symbol: Symbol { name: Operator(RTTIBaseClassDescriptor(0, -1, 0, 64)), \
                   scope: NameSequence { names: [NonTemplate([85]), NonTemplate([105])] } }, symbol_type: RTTIType }",
        },
        Row {
            symbol: "?x@?A0xa@@",
            sets: &[],
            rest: "ParseResult { symbol: Symbol { name: NonTemplate([120]), \
                   scope: NameSequence { names: [AnonymousNamespace(Some(\"0xa\"))] } }, symbol_type: None }",
        },
    ];

    /// Returns the expected debug text of a row.
    fn expected(alloc: Global, row: &Row) -> Result<String, AllocError> {
        let mut text = String::new(alloc);
        for (before, bits) in row.sets {
            let set = StorageClass::from_bits_retain(*bits);
            let shown = format!(in alloc; "{set:?}")?;
            text.push_str(before)?;
            text.push_str(shown.as_str())?;
        }
        text.push_str(row.rest)?;
        Ok(text)
    }

    /// Returns the debug text of a symbol's tree.
    fn shown(alloc: Global, symbol: &str) -> Result<String, Error> {
        let tree = parse(alloc, symbol)?;
        Ok(format!(in alloc; "{tree:?}")?)
    }

    /// Tests whole texts, and that a set shows no name.
    #[test]
    fn trees(rt: HostRuntime) -> Result<(), Fail> {
        ample(&rt);
        for row in &ROWS {
            let text = shown(rt.alloc(), row.symbol)?;
            let wanted = expected(rt.alloc(), row)?;
            let symbol = row.symbol;
            assert_eq!(rt; text.as_str(), wanted.as_str(), "at {symbol}");
            assert!(rt; !text.as_str().contains("CONST"), "at {symbol}");
        }
        Ok(())
    }
}
