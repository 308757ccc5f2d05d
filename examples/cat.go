// The filter of cat.c in Go, by cgo: cat FORM, with FORM as nfc, nfd, nfkc or nfkd.
package main

// #include "nfstream.h"
import "C"

import (
	"fmt"
	"io"
	"os"
	"unsafe"
)

// The library is given pointers that are valid for their lengths, and no two that overlap; it keeps none.
func at(bytes []byte) *C.uint8_t { return (*C.uint8_t)(unsafe.Pointer(&bytes[:1][0])) }

// Writes the form of what is read; a fault of the text is told by its status and place.
func pass(form C.uint32_t, from io.Reader, to io.Writer) error {
	var state C.struct_nf_state
	var moved C.struct_nf_moved
	in, out := make([]byte, 65536), make([]byte, 65536)
	if C.nf_start(&state, form, C.NF_AS_IS, 0) != C.NF_DONE {
		return fmt.Errorf("no such form")
	}
	for {
		size, ended := from.Read(in)
		for left := in[:size]; len(left) > 0; left = left[moved.read:] {
			status := C.nf_feed(&state, at(left), C.size_t(len(left)), at(out), C.size_t(len(out)), &moved)
			if _, err := to.Write(out[:moved.written]); err != nil {
				return err
			}
			if status != C.NF_DONE && status != C.NF_FULL {
				return fmt.Errorf("status %d at %d, start %d", status, moved.at, moved.start)
			}
		}
		if ended == io.EOF {
			break
		} else if ended != nil {
			return ended
		}
	}
	status := C.nf_finish(&state, at(out), C.size_t(len(out)), &moved)
	if _, err := to.Write(out[:moved.written]); err != nil {
		return err
	}
	if status != C.NF_DONE {
		return fmt.Errorf("status %d at %d, start %d", status, moved.at, moved.start)
	}
	return nil
}

func main() {
	forms := map[string]C.uint32_t{"nfc": C.NF_NFC, "nfd": C.NF_NFD, "nfkc": C.NF_NFKC, "nfkd": C.NF_NFKD}
	if len(os.Args) < 2 || forms[os.Args[1]] == 0 {
		os.Exit(2)
	}
	if err := pass(forms[os.Args[1]], os.Stdin, os.Stdout); err != nil {
		fmt.Fprintln(os.Stderr, "cat:", err)
		os.Exit(3)
	}
}
