//! Calls the library through the crate. Expected texts are those of the header and of the table of flags.

use msvc_demangler::{
    demangle, demangle_full, demangle_within, filter, symbol_length, symbol_length_within, DemangleFlags, Limit,
};

const LLVM: DemangleFlags = DemangleFlags::llvm();

#[test]
fn a_symbol_may_have_any_characters_and_more_after_it() {
    assert_eq!(demangle("?f@@YAXH@Z and more", LLVM).unwrap(), "void __cdecl f(int)");
    assert_eq!(demangle("?€@😀@@3HA", LLVM).unwrap(), "int 😀::€");
    assert_eq!(demangle("?x\0y@@3HA", LLVM).unwrap(), "int x\0y");
}

#[test]
fn a_long_declaration_is_whole() {
    // Each parameter takes the one before twice.
    let mut parameters = vec!["int *".to_owned()];
    for before in 0..5 {
        parameters.push(format!("void (__cdecl *)({0}, {0})", parameters[before]));
    }
    let symbol = "?f@@YAXPAHP6AX00@ZP6AX11@ZP6AX22@ZP6AX33@ZP6AX44@Z@Z";
    let wanted = format!("void __cdecl f({})", parameters.join(", "));
    assert_eq!(demangle(symbol, LLVM), Ok(wanted));
}

#[test]
fn errors_say_where_and_why() {
    let error = demangle("?x@@3L", LLVM).unwrap_err();
    assert_eq!(error.to_string(), "unknown primitive type (offset: 6, remaining: \"\")");
    assert_eq!((error.offset(), error.limit()), (Some(6), None));
    assert!(!error.is_out_of_memory());
    assert_eq!(demangle("", LLVM).unwrap_err().offset(), Some(0));
    assert_eq!(error, demangle("?x@@3L", LLVM).unwrap_err());

    let error = demangle_within(b"?x\xff@@3HA", LLVM, usize::MAX, usize::MAX).unwrap_err();
    assert_eq!((error.to_string().as_str(), error.offset()), ("not UTF-8", Some(2)));
}

#[test]
fn errors_say_which_limit_is_exceeded() {
    let limit = |nodes, bytes| demangle_within("?x@ns@@3HA", LLVM, nodes, bytes).map_err(|error| error.limit());
    assert_eq!(limit(usize::MAX, 9), Ok("int ns::x".to_owned()));
    assert_eq!(limit(usize::MAX, 8), Err(Some(Limit::Bytes)));
    assert_eq!(limit(1, usize::MAX), Err(Some(Limit::Nodes)));
}

#[test]
fn the_default_limits_suit_hostile_symbols() {
    for demangle in [demangle, demangle_full] {
        let error = demangle(&format!("?x@@3{}HA", "PEA".repeat(1_000_000)), LLVM).unwrap_err();
        assert_eq!(error.limit(), Some(Limit::Nodes));
        let error = demangle(&format!("?{}@@3HA", "n".repeat(65_536)), LLVM).unwrap_err();
        assert_eq!(error.limit(), Some(Limit::Bytes));
    }
}

#[test]
fn a_symbol_is_measured() {
    assert_eq!(symbol_length("?x@@3HA and more"), Ok(7));
    let error = demangle("?x@@3L", LLVM).unwrap_err();
    assert_eq!(symbol_length("?x@@3L"), Err(error));
}

#[test]
fn both_grammars_are_read() {
    let (symbol, full) = ("?f@@YA?A?<auto>@@H@Z", LLVM | DemangleFlags::FULL);
    assert_eq!(demangle_full(symbol, LLVM).as_deref(), Ok("<auto> __cdecl f(int)"));
    assert_eq!(demangle_full(symbol, DemangleFlags::NAME_ONLY).as_deref(), Ok("f"));
    assert_eq!(demangle_within(symbol, full, 100, 21), demangle_full(symbol, LLVM));
    assert_eq!(symbol_length_within(symbol, full, 100), Ok(20));
    assert_eq!(filter(symbol.as_bytes(), full), b"<auto> __cdecl f(int)");
    let error = demangle(symbol, LLVM).unwrap_err();
    assert_eq!(symbol_length_within(symbol, LLVM, 100), Err(error));
    assert_eq!(symbol_length_within(symbol, full, 1).unwrap_err().limit(), Some(Limit::Nodes));
}

#[test]
fn a_text_is_filtered() {
    assert_eq!(filter(b"\0\xff ?x@ns@@3HA\0", LLVM), b"\0\xff int ns::x\0");
    assert_eq!(filter(b"", LLVM), b"");
    let (text, wanted) = ("?f@@YAXH@Z\n".repeat(100), "void __cdecl f(int)\n".repeat(100));
    assert_eq!(filter(text.as_bytes(), LLVM), wanted.as_bytes());
}

#[test]
fn flags_are_sets() {
    let (name, llvm) = (DemangleFlags::NAME_ONLY, LLVM);
    let both = DemangleFlags::from_bits_retain(0xE01400);
    assert_eq!(name | llvm, both);
    assert_eq!(both & name, name);
    assert_eq!(both ^ name, llvm);
    assert_eq!(both - name, llvm);
    assert_eq!(!!both, both);
    assert!(both.contains(llvm) && both.intersects(name) && !llvm.intersects(name) && !llvm.contains(both));
    assert!(DemangleFlags::COMPLETE.is_empty() && DemangleFlags::all().is_all() && (!DemangleFlags::all()).is_empty());
    let halves = DemangleFlags::NO_MS_THISTYPE | DemangleFlags::NO_CV_THISTYPE;
    assert_eq!(halves, DemangleFlags::NO_THISTYPE);
    assert_eq!([name, llvm].into_iter().collect::<DemangleFlags>(), both);
    assert_eq!(
        format!("{both:#x} {both:X} {name:b} {name:o}"),
        "0xe01400 E01400 1000000000000 10000"
    );

    let mut changing = DemangleFlags::default();
    changing.insert(both);
    changing.remove(llvm);
    assert_eq!(changing, name);
    changing.toggle(both);
    assert_eq!(changing, llvm);
    changing.set(name, true);
    assert_eq!(changing, both);
    changing.set(name, false);
    changing.extend([name]);
    assert_eq!(changing, both);
}

#[test]
fn bits_without_a_name_are_known() {
    assert_eq!(DemangleFlags::from_bits(1), None);
    assert_eq!(DemangleFlags::from_bits(0x1000), Some(DemangleFlags::NAME_ONLY));
    assert_eq!(DemangleFlags::from_bits_truncate(0x1001), DemangleFlags::NAME_ONLY);
    assert_eq!(DemangleFlags::from_bits_retain(1).bits(), 1);
    assert_eq!(DemangleFlags::from_bits(DemangleFlags::FULL.bits()), None);
    assert!(!DemangleFlags::all().intersects(DemangleFlags::FULL));
}
