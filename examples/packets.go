// Lists the packets of standard input, as packets.c does, from Go, through cgo:
//
//	PKG_CONFIG_PATH=PREFIX/lib/pkgconfig LD_LIBRARY_PATH=PREFIX/lib go run packets.go
//
// A handle is the library's own pointer; chunks and buffers are in Go's memory, for one call each.
package main

/*
#cgo pkg-config: gitwire
#include <gitwire.h>
*/
import "C"

import (
	"bufio"
	"fmt"
	"io"
	"os"
	"strconv"
	"unsafe"
)

const mostBytes = 65536

// A packetReader is one of the library's. It is used by one goroutine at a time, and freed once.
type packetReader struct {
	handle *C.gitwire_packet_reader
	buffer [C.GITWIRE_PAYLOAD_SIZE]byte
}

func newPacketReader() (*packetReader, error) {
	var handle *C.gitwire_packet_reader
	if C.gitwire_packet_reader_new(&handle) != C.GITWIRE_DONE {
		return nil, fmt.Errorf("no memory")
	}
	return &packetReader{handle: handle}, nil
}

func (reader *packetReader) free() {
	C.gitwire_packet_reader_free(reader.handle)
	reader.handle = nil
}

// bytesOf is the address of a chunk of at least one byte.
func bytesOf(chunk []byte) *C.uint8_t {
	return (*C.uint8_t)(unsafe.Pointer(&chunk[0]))
}

func (reader *packetReader) feed(chunk []byte) C.gitwire_answer {
	return C.gitwire_packet_reader_feed(reader.handle, bytesOf(chunk), C.size_t(len(chunk)),
		bytesOf(reader.buffer[:]), C.size_t(len(reader.buffer)))
}

// faultOf returns what is wrong by name and offset, as "Truncated at 6".
func faultOf(answer C.gitwire_answer) error {
	return fmt.Errorf("%s at %d", C.GoString(C.gitwire_fault_name(answer.fault)), uint64(answer.offset))
}

func show(out *bufio.Writer, answer C.gitwire_answer, buffer []byte) {
	offset := uint64(answer.offset)
	switch answer.kind {
	case C.GITWIRE_FLUSH:
		fmt.Fprintln(out, offset, "flush")
	case C.GITWIRE_DELIM:
		fmt.Fprintln(out, offset, "delim")
	case C.GITWIRE_RESPONSE_END:
		fmt.Fprintln(out, offset, "end")
	default:
		showPayload(out, offset, buffer[:answer.length])
	}
}

func showPayload(out *bufio.Writer, offset uint64, payload []byte) {
	fmt.Fprintf(out, "%d data %d", offset, len(payload))
	if len(payload) > 0 {
		out.WriteByte(' ')
	}
	writeEscaped(out, payload)
	out.WriteByte('\n')
}

// writeEscaped writes a peer's bytes as git2show shows them.
func writeEscaped(out *bufio.Writer, rest []byte) {
	var shown [4096]byte
	for len(rest) > 0 {
		answer := C.gitwire_escape(bytesOf(rest), C.size_t(len(rest)), (*C.char)(unsafe.Pointer(&shown[0])), C.size_t(len(shown)))
		out.Write(shown[:answer.length])
		rest = rest[answer.used:]
	}
}

func list(reader *packetReader, most int, in io.Reader, out *bufio.Writer) error {
	chunk := make([]byte, most)
	for {
		length, err := in.Read(chunk)
		for rest := chunk[:length]; len(rest) > 0; {
			answer := reader.feed(rest)
			rest = rest[answer.used:]
			if answer.kind == C.GITWIRE_FAILED {
				return faultOf(answer)
			}
			if answer.kind != C.GITWIRE_MORE {
				show(out, answer, reader.buffer[:])
			}
		}
		if err == io.EOF {
			break
		}
		if err != nil {
			return err
		}
	}
	if answer := C.gitwire_packet_reader_close(reader.handle); answer.kind != C.GITWIRE_DONE {
		return faultOf(answer)
	}
	return nil
}

func run(most int) error {
	reader, err := newPacketReader()
	if err != nil {
		return err
	}
	defer reader.free()
	out := bufio.NewWriter(os.Stdout)
	if err := list(reader, most, os.Stdin, out); err != nil {
		out.Flush()
		return err
	}
	return out.Flush()
}

func main() {
	most, err := mostBytes, error(nil)
	if len(os.Args) > 1 {
		most, err = strconv.Atoi(os.Args[1])
	}
	if err != nil || most < 1 || most > mostBytes {
		fmt.Fprintln(os.Stderr, "usage: packets [BYTES]")
		os.Exit(2)
	}
	if err := run(most); err != nil {
		fmt.Fprintln(os.Stderr, "packets:", err)
		os.Exit(1)
	}
}
