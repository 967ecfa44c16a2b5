// Answers of Go's net/url, a line for a line.
package main

import (
	"bufio"
	"fmt"
	"net/url"
	"os"
	"regexp"
	"strings"
)

var escape = regexp.MustCompile(`\\x[0-9a-f]{2}`)
var place = regexp.MustCompile(`(?s)^(\[.*\]|[^:]*)(?::(.*))?$`)

func textOf(field string) string {
	return escape.ReplaceAllStringFunc(field, func(found string) string {
		var value byte
		fmt.Sscanf(found[2:], "%02x", &value)
		return string([]byte{value})
	})
}

func fieldOf(text string) string {
	var out strings.Builder
	for _, b := range []byte(text) {
		if b >= 0x20 && b < 0x7f && b != 0x5c {
			out.WriteByte(b)
		} else {
			fmt.Fprintf(&out, "\\x%02x", b)
		}
	}
	return out.String()
}

func orAbsent(isPresent bool, text string) string {
	if isPresent {
		return fieldOf(text)
	}
	return `\-`
}

// An empty fragment, and an empty authority, isn't told from an absent one.
func reading(u *url.URL) string {
	path := u.EscapedPath()
	if u.Opaque != "" {
		path = u.Opaque
	}
	user := ""
	if u.User != nil {
		user = u.User.String()
	}
	found := place.FindStringSubmatch(u.Host)
	host, port := u.Host, ""
	if found != nil {
		host, port = found[1], found[2]
	}
	isPresent := u.Host != "" || u.User != nil
	return "=" + strings.Join([]string{orAbsent(u.Scheme != "", u.Scheme), orAbsent(u.User != nil, user), orAbsent(isPresent, host),
		orAbsent(port != "", port), fieldOf(path), orAbsent(u.RawQuery != "" || u.ForceQuery, u.RawQuery),
		orAbsent(u.Fragment != "", u.EscapedFragment())}, "\t")
}

func answerTo(chapter string, texts []string) string {
	if chapter != "reading" && chapter != "resolution" {
		return "?"
	}
	read, err := url.Parse(texts[0])
	if err != nil {
		return "!"
	}
	if chapter == "reading" {
		return reading(read)
	}
	target, err := read.Parse(texts[1])
	if err != nil {
		return "!"
	}
	return "=" + fieldOf(target.String())
}

func main() {
	in := bufio.NewScanner(os.Stdin)
	in.Buffer(nil, 1<<24)
	out := bufio.NewWriter(os.Stdout)
	defer out.Flush()
	for in.Scan() {
		fields := strings.Split(in.Text(), "\t")
		for index := range fields {
			fields[index] = textOf(fields[index])
		}
		fmt.Fprintln(out, answerTo(fields[0], fields[1:]))
	}
}
