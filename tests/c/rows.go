// Compares the library with rows, as rows.c does.
package main

/*
#cgo pkg-config: msvc-demangler
#include <msvc_demangler.h>
*/
import "C"

import (
	"bufio"
	"fmt"
	"os"
	"strconv"
	"strings"
	"unsafe"
)

// No limit: unsafe for symbols that are not trusted. C.MSVC_DEMANGLER_DEFAULT_NODES and _BYTES suit those.
const unlimited = C.size_t(C.MSVC_DEMANGLER_UNLIMITED)

// demangle returns the result for a symbol, and its declaration or why there is none.
func demangle(symbol string, flags uint32, nodes, bytes C.size_t) (C.struct_msvc_demangler_result, string) {
	input := append([]byte(symbol), 0) // the NUL gives an empty symbol an address
	length := C.size_t(len(symbol))
	size := C.msvc_demangler_usual_size(length)
	for {
		out := make([]byte, size)
		result := C.msvc_demangler_demangle((*C.char)(unsafe.Pointer(&input[0])), length, C.uint32_t(flags),
			nodes, bytes, (*C.char)(unsafe.Pointer(&out[0])), size)
		if result.length < size {
			return result, string(out[:result.length])
		}
		size = result.length + 1
	}
}

func agrees(row string) bool {
	fields := strings.SplitN(row, "\t", 4)
	flags, _ := strconv.ParseUint(fields[0], 16, 32)
	result, text := demangle(fields[1], uint32(flags), unlimited, unlimited)
	if fields[2] == "ok" {
		return result.status == C.MSVC_DEMANGLER_OK && text == fields[3]
	}
	offset, message, _ := strings.Cut(fields[3], "\t")
	status := C.uint32_t(C.MSVC_DEMANGLER_INVALID)
	if message == "not UTF-8" {
		status = C.MSVC_DEMANGLER_NOT_UTF8
	}
	return result.status == status && fmt.Sprint(result.offset) == offset && strings.HasPrefix(text, message)
}

func main() {
	agree, differ := 0, 0
	for lines := bufio.NewScanner(os.Stdin); lines.Scan(); {
		row := lines.Text()
		if strings.HasPrefix(row, "# ") {
			continue
		}
		if agrees(row) {
			agree++
		} else {
			differ++
			fmt.Println(row)
		}
	}
	fmt.Println(agree, "rows agree,", differ, "differ")
	result, text := demangle("?x\x00ä@@3HA", C.MSVC_DEMANGLER_LLVM, 1000, 8)
	if differ != 0 || result.status != C.MSVC_DEMANGLER_OK || text != "int x\x00ä" {
		os.Exit(1)
	}
}
