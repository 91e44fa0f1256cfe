#include <msvc_demangler.h>
#include <stdio.h>

int main(void)
{
    char text[256];
    struct msvc_demangler_result result =
        msvc_demangler_demangle_string("?x@ns@@3HA", MSVC_DEMANGLER_LLVM, text, sizeof text);
    puts(text);
    return result.status == MSVC_DEMANGLER_OK ? 0 : 1;
}
