// The calls from Go, by cgo. Panics if an answer is wrong.
package main

// #include <uriparse.h>
import "C"

import (
	"fmt"
	"unsafe"
)

// A text's pointer and length.
func pointer(text string) (C.uriparse_bytes, C.size_t) {
	bytes := append([]byte(text), 0)
	return C.uriparse_bytes(unsafe.Pointer(&bytes[0])), C.size_t(len(text))
}

func piece(text string, span C.struct_uriparse_span) string {
	if !span.present {
		return "absent"
	}
	return text[span.begin:span.end]
}

func normalize(text string) string {
	begin, length := pointer(text)
	out := make([]byte, len(text)+16)
	var needed C.size_t
	room := C.uriparse_buffer(unsafe.Pointer(&out[0]))
	if C.uriparse_normalize(begin, length, room, C.size_t(len(out)), &needed) != C.URIPARSE_OK {
		return "rejected"
	}
	return string(out[:needed])
}

func resolve(base, text string) string {
	baseBegin, baseLength := pointer(base)
	begin, length := pointer(text)
	out := make([]byte, len(base)+len(text)+16)
	var needed C.size_t
	room := C.uriparse_buffer(unsafe.Pointer(&out[0]))
	if C.uriparse_resolve(baseBegin, baseLength, begin, length, room, C.size_t(len(out)), &needed) != C.URIPARSE_OK {
		return "rejected"
	}
	return string(out[:needed])
}

// The escaped text, whose length is asked for first.
func escape(text string) string {
	begin, length := pointer(text)
	var needed C.size_t
	check(C.uriparse_escape(begin, length, nil, 0, &needed) == C.URIPARSE_NO_ROOM, "length of "+text)
	out := make([]byte, needed)
	room := C.uriparse_buffer(unsafe.Pointer(&out[0]))
	check(C.uriparse_escape(begin, length, room, needed, &needed) == C.URIPARSE_OK, "escape "+text)
	return string(out)
}

// The names and values of the pairs of a query.
func pairs(query string) string {
	begin, length := pointer(query)
	var pair C.struct_uriparse_pair
	found := ""
	for bool(C.uriparse_next_pair(begin, length, pair.next, &pair)) {
		found += piece(query, pair.name) + " " + piece(query, pair.value) + " "
	}
	return found
}

func decode(text string) string {
	begin, length := pointer(text)
	out := make([]byte, len(text)+1)
	var needed C.size_t
	room := C.uriparse_buffer(unsafe.Pointer(&out[0]))
	if C.uriparse_decode(begin, length, room, C.size_t(len(out)), &needed) != C.URIPARSE_OK {
		return "rejected"
	}
	return string(out[:needed])
}

func encode(component C.uint32_t, text string) string {
	begin, length := pointer(text)
	out := make([]byte, 3*len(text)+1)
	var needed C.size_t
	room := C.uriparse_buffer(unsafe.Pointer(&out[0]))
	if C.uriparse_encode(component, begin, length, room, C.size_t(len(out)), &needed) != C.URIPARSE_OK {
		return "rejected"
	}
	return string(out[:needed])
}

// The code of the first fault and its place.
func firstFault(text string) (C.uint32_t, int) {
	begin, length := pointer(text)
	var place C.size_t
	code := C.uriparse_first_fault(begin, length, &place)
	return code, int(place)
}

func isURI(text string) bool {
	begin, length := pointer(text)
	return bool(C.uriparse_is_uri(begin, length))
}

func hash(text string) uint64 {
	begin, length := pointer(text)
	var hash C.uint64_t
	check(C.uriparse_hash(begin, length, &hash) == C.URIPARSE_OK, "hash of "+text)
	return uint64(hash)
}

func equal(left, right string) bool {
	leftBegin, leftLength := pointer(left)
	rightBegin, rightLength := pointer(right)
	var equal C.bool
	check(C.uriparse_equal(leftBegin, leftLength, rightBegin, rightLength, &equal) == C.URIPARSE_OK, "equal to "+left)
	return bool(equal)
}

func check(holds bool, what string) {
	if !holds {
		panic(what)
	}
}

func main() {
	text := "http://user@example.com:80/a?q"
	begin, length := pointer(text)
	var parts C.struct_uriparse_parts
	check(C.uriparse_parse(begin, length, &parts) == C.URIPARSE_OK, "parse")
	check(piece(text, parts.host) == "example.com" && piece(text, parts.fragment) == "absent", "host and fragment")
	check(parts.host_kind == C.URIPARSE_HOST_NAME && parts.port_number == 80, "kind and port")
	begin, length = pointer("/%")
	check(C.uriparse_parse(begin, length, &parts) == C.URIPARSE_PATH_ESCAPE, "code")
	code, place := firstFault("a b")
	check(code == C.URIPARSE_PATH_BYTE && place == 1, "first fault")
	check(isURI("a:b") && !isURI("a") && !isURI(""), "is_uri")
	check(equal("a%7e", "a~") && !equal("a", "b"), "equal")
	check(hash("a%7e") == hash("a~"), "hash")
	check(normalize("HTTP://H/%7e/../x") == "http://h/x" && normalize("%") == "rejected", "normalize")
	check(resolve("http://a/b/c", "../g#s") == "http://a/g#s" && resolve("/a", "b") == "rejected", "resolve")
	check(decode("a%2Fb+") == "a/b+" && decode("") == "" && decode("%2") == "rejected", "decode")
	check(pairs("a=1&b&") == "a 1 b absent  absent " && pairs("") == " absent ", "pairs")
	check(encode(C.URIPARSE_SEGMENT, "a/b") == "a%2Fb" && encode(C.URIPARSE_QUERY, "") == "", "encode")
	check(encode(7, "a") == "rejected", "no component")
	check(escape("http://h/ü b") == "http://h/%C3%BC%20b", "escape")
	fmt.Println("ok")
}
