# The program `uri`, its man page, and its completions for bash, zsh and fish; and the artefacts of a release.
#   make             proves and builds the program, unless it is built
#   make install     PREFIX says where to, DESTDIR below which folder
#   make dist        fills the folder DIST with the artefacts, from what is proved here or else is proved first; LOGS names what `rt ci` printed
#   make dist-check  makes them twice and compares their bytes
PREFIX = /usr/local
URI = crates/uri/out/uri
SHARE = $(DESTDIR)$(PREFIX)/share
DIST = dist
LOGS = $(wildcard out/rt-ci.log)
LIBRARY = crates/uriparse_c/out/liburiparse_c.a
LIBRARY_AARCH64 = crates/uriparse_c/out/aarch64-linux-gnu/liburiparse_c.a
MODULE = bindings/web/uriparse.wasm
LLVM = crates/uriparse_c/out/native.ll

.PHONY: all install dist dist-check
all: $(URI)

$(URI):
	cd crates/uri && rt run -- help > /dev/null

$(LIBRARY):
	cd crates/uriparse_c && rt lib

$(LIBRARY_AARCH64): | $(LIBRARY)
	tools/gate/archive aarch64-linux-gnu

$(MODULE): | $(LIBRARY)
	bindings/web/build

$(LLVM): | $(LIBRARY)
	tools/gate/llvm $@

install: $(URI)
	tools/manual $(URI) out
	install -D -m 755 $(URI) $(DESTDIR)$(PREFIX)/bin/uri
	install -D -m 644 out/uri.1 $(SHARE)/man/man1/uri.1
	install -D -m 644 out/uri.bash $(SHARE)/bash-completion/completions/uri
	install -D -m 644 out/_uri $(SHARE)/zsh/site-functions/_uri
	install -D -m 644 out/uri.fish $(SHARE)/fish/vendor_completions.d/uri.fish

dist: $(URI) $(LIBRARY) $(LIBRARY_AARCH64) $(MODULE) $(LLVM)
	tools/dist/build $(DIST) $(LOGS)

dist-check: $(URI) $(LIBRARY) $(LIBRARY_AARCH64) $(MODULE) $(LLVM)
	tools/dist/check
