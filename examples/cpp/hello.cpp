// c++ -std=c++17 hello.cpp $(pkg-config --cflags --libs msvc-demangler) -o hello
#include <iostream>
#include <msvc_demangler.h>

int main()
{
    std::optional<std::string> text = msvc_demangler::demangle("?x@ns@@3HA");
    std::cout << text.value_or("no symbol") << '\n';
    return text ? 0 : 1;
}
