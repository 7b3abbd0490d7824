// Command library spreads a file over the shards of f = 1, loses two of the four, and reads it back: the library
// libwalrus in Go. It is run in this folder, once ./walrus --library has built what it links:
//
//	go run . FILE
package main

/*
#cgo CFLAGS: -I${SRCDIR}/../../c
#cgo LDFLAGS: -L${SRCDIR}/../../c/out -lwalrus -Wl,-rpath,${SRCDIR}/../../c/out
#include "walrus.h"
*/
import "C"

import (
	"bytes"
	"encoding/binary"
	"fmt"
	"log"
	"os"
	"strings"
	"unsafe"
)

// address gives where a slice lies, which is never null.
func address(slice []byte) *C.uint8_t {
	if len(slice) == 0 {
		slice = make([]byte, 1)
	}
	return (*C.uint8_t)(unsafe.Pointer(&slice[0]))
}

// run does what the words of a command line ask for, and gives the program's status and what it writes. It may be called
// from several goroutines at once.
func run(input []byte, words ...string) (status uint8, text []byte) {
	told := []byte(strings.Join(words, "\x00") + "\x00")
	for room := uint64(4096); ; {
		text = make([]byte, room)
		var written, needed C.uint64_t
		status = uint8(C.walrus_run(address(told), C.size_t(len(told)), address(input), C.size_t(len(input)),
			address(text), C.size_t(len(text)), &written, &needed))
		if status != C.WALRUS_NO_ROOM {
			return status, text[:written]
		}
		room = uint64(needed)
	}
}

// split gives the envelopes of a stream that the library wrote, each whole.
func split(stream []byte) (envelopes [][]byte) {
	for len(stream) > 0 {
		end := 7 + binary.BigEndian.Uint32(stream[3:])
		envelopes, stream = append(envelopes, stream[:end]), stream[end:]
	}
	return
}

func main() {
	if len(os.Args) != 2 {
		log.Fatal("usage: go run . FILE")
	}
	blob, err := os.ReadFile(os.Args[1])
	if err != nil {
		log.Fatal(err)
	}
	status, name := run(blob, "id", "1")
	if status != 0 {
		log.Fatalf("the file has no identifier: status %d, %s", status, name)
	}
	identifier := strings.TrimSpace(string(name))
	_, encoded := run(blob, "encode", "1")
	envelopes := split(encoded) // the metadata, and of each shard its primary and its secondary sliver
	kept := bytes.Join([][]byte{envelopes[0], envelopes[3], envelopes[7]}, nil)
	status, found := run(kept, "read", identifier)
	if status != 0 || !bytes.Equal(found, blob) {
		log.Fatalf("it is not read back: status %d, %.100q", status, found)
	}
	fmt.Printf("%s is read from two of four shards: %d bytes\n", identifier, len(found))
}
