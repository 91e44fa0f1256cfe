// go run hello.go
package main

/*
#cgo pkg-config: msvc-demangler
#include <msvc_demangler.h>
*/
import "C"

import (
	"fmt"
	"os"
	"unsafe"
)

func main() {
	symbol := C.CString("?x@ns@@3HA")
	defer C.free(unsafe.Pointer(symbol))
	var text [256]C.char
	result := C.msvc_demangler_demangle_string(symbol, C.MSVC_DEMANGLER_LLVM, &text[0], C.size_t(len(text)))
	fmt.Println(C.GoString(&text[0]))
	if result.status != C.MSVC_DEMANGLER_OK {
		os.Exit(1)
	}
}
