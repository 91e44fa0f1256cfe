// Compares the C++ calls with rows, as rows.c does with those of C.

#include <algorithm>
#include <iostream>
#include <msvc_demangler.h>

static constexpr std::size_t any = MSVC_DEMANGLER_UNLIMITED;

// The field that rest begins with; rest is what follows it.
static std::string_view next_field(std::string_view &rest)
{
    std::string_view field = rest.substr(0, rest.find('\t'));
    rest.remove_prefix(std::min(field.size() + 1, rest.size()));
    return field;
}

static bool agrees(std::string_view row)
{
    auto flags = static_cast<std::uint32_t>(std::stoul(std::string(next_field(row)), nullptr, 16));
    flags |= MSVC_DEMANGLER_CRATE;
    std::string_view symbol = next_field(row);
    bool is_ok = next_field(row) == "ok";
    std::size_t offset = is_ok ? 0 : std::stoul(std::string(next_field(row)));

    std::optional<std::string> declaration = msvc_demangler::demangle(symbol, flags, any, any);
    msvc_demangler_result result;
    std::string text = msvc_demangler::demangle(symbol, result, flags, any, any);
    if (is_ok) {
        return declaration == row && text == row && result.status == MSVC_DEMANGLER_OK;
    }
    return !declaration && result.offset == offset && text.substr(0, row.size()) == row &&
           result.status == (row == "not UTF-8" ? MSVC_DEMANGLER_NOT_UTF8 : MSVC_DEMANGLER_INVALID);
}

int main()
{
    long agree = 0;
    long differ = 0;
    for (std::string line; std::getline(std::cin, line);) {
        if (line.substr(0, 2) == "# ") {
            continue;
        }
        if (agrees(line)) {
            agree++;
        } else {
            differ++;
            std::cout << line << '\n';
        }
    }
    std::cout << agree << " rows agree, " << differ << " differ\n";
    bool is_right = msvc_demangler::demangle("?x@ns@@3HA") == "int ns::x" &&
                    !msvc_demangler::demangle("?x@ns@@3HA", MSVC_DEMANGLER_LLVM, any, 8) &&
                    msvc_demangler::filter("a ?x@ns@@3HA b") == "a int ns::x b" &&
                    msvc_demangler::demangle("?f@@9") == "extern \"C\" f" &&
                    msvc_demangler::filter("a ?f@@9") == "a extern \"C\" f" &&
                    msvc_demangler::filter("a ?f@@9", MSVC_DEMANGLER_LLVM | MSVC_DEMANGLER_CRATE) == "a f";
    return is_right && differ == 0 ? 0 : 1;
}
