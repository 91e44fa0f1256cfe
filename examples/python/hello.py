import msvc_demangler

print(msvc_demangler.filter("undefined: ?x@ns@@3HA", msvc_demangler.Flags.NAME_ONLY))
print(msvc_demangler.demangle("?x@ns@@3HA"))
