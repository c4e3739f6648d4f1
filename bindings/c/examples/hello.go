// Decodes a multihash by the library for C: go run hello.go
package main

/*
#cgo pkg-config: multihash_c
#include "multihash.h"
*/
import "C"

import (
	"fmt"
	"unsafe"
)

func main() {
	bytes := []byte("\x12\x03abc")
	found := C.multihash_from_bytes((*C.uint8_t)(unsafe.Pointer(&bytes[0])), C.size_t(len(bytes)))
	if found.status != C.MULTIHASH_OK {
		panic(C.GoString(C.multihash_status_text(found.status)))
	}
	digest := bytes[found.digest_offset:][:found.digest_length]
	fmt.Printf("code %d, digest %s\n", found.code, digest)
}
