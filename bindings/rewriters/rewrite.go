// Makes the links of a page absolute: rewrite BASE < PAGE. A link that is no URI stays.
package main

// #include <uriparse.h>
import "C"

import (
	"fmt"
	"io"
	"os"
	"regexp"
	"unsafe"
)

// The pointer of a text, or of a buffer.
func pointer(bytes []byte) unsafe.Pointer {
	if len(bytes) == 0 {
		return nil
	}
	return unsafe.Pointer(&bytes[0])
}

func absolute(base, link []byte) []byte {
	var size C.size_t
	escaped := make([]byte, 3*len(link))
	target := make([]byte, len(base)+len(escaped)+16)
	C.uriparse_escape(C.uriparse_bytes(pointer(link)), C.size_t(len(link)), C.uriparse_buffer(pointer(escaped)), C.size_t(len(escaped)), &size)
	if C.uriparse_resolve(C.uriparse_bytes(pointer(base)), C.size_t(len(base)), C.uriparse_bytes(pointer(escaped)), size,
		C.uriparse_buffer(pointer(target)), C.size_t(len(target)), &size) != C.URIPARSE_OK {
		return link
	}
	return target[:size]
}

func main() {
	page, _ := io.ReadAll(os.Stdin)
	attribute := regexp.MustCompile(`href="[^"]*"`)
	os.Stdout.Write(attribute.ReplaceAllFunc(page, func(found []byte) []byte {
		link := found[len(`href="`) : len(found)-1]
		return []byte(fmt.Sprintf(`href="%s"`, absolute([]byte(os.Args[1]), link)))
	}))
}
