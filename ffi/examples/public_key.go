// Prints the length of the modulus, and the exponent, of the public key in a file.
package main

// #cgo pkg-config: libpkcs1
// #include <pkcs1.h>
// #include <stdlib.h>
import "C"

import (
	"fmt"
	"log"
	"math/big"
	"os"
	"unsafe"
)

func main() {
	file, err := os.ReadFile(os.Args[1])
	if err != nil {
		log.Fatal(err)
	}
	der := C.CBytes(file)
	defer C.free(der)
	var key C.struct_pkcs1_public_key
	status := C.pkcs1_public_key_decode((*C.uint8_t)(der), C.size_t(len(file)), &key)
	if status != C.PKCS1_OK {
		log.Fatalf("%s: %s", os.Args[1], C.GoString(C.pkcs1_strerror(status)))
	}
	exponent := unsafe.Slice((*byte)(key.public_exponent.data), key.public_exponent.len)
	fmt.Printf("%d bits, exponent %d\n", C.pkcs1_bit_len(key.modulus), new(big.Int).SetBytes(exponent))
}
