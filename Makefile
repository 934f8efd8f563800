# make: proves and builds the program. try: runs the script SCRIPT, before anything is proved too. demo: runs examples/first so. install: puts it on the PATH. library: proves and builds the library
# for C in lib/. install-library: puts what stands in lib/ below PREFIX with the headers and what finds it; that takes no kit, and where nothing stands there, it is built first.
PREFIX ?= /usr/local
below = $(DESTDIR)$(PREFIX)

program = crates/layout_cli/out/layout_cli

.PHONY: all try demo install library install-library clean

all:
	tools/build

try:
	@tools/try "$(SCRIPT)"

demo:
	@tools/demo

install: all
	install -D -m 755 $(program) $(DESTDIR)$(PREFIX)/bin/llama

library:
	@tools/library lib

install-library:
	@[ -e lib/libllama_layout.a ] || tools/library lib
	install -d $(below)/include $(below)/lib/pkgconfig $(below)/lib/cmake/llama_layout
	install -m 644 include/llama_layout.h include/llama_layout_places.h include/llama_layout.hpp include/llama_layout.f90 $(below)/include
	install -m 644 lib/libllama_layout.a $(below)/lib
	cp -P lib/libllama_layout.so lib/libllama_layout.so.* $(below)/lib
	install -m 644 lib/llama_layout.pc $(below)/lib/pkgconfig
	install -m 644 lib/llama_layoutConfig.cmake lib/llama_layoutConfigVersion.cmake $(below)/lib/cmake/llama_layout

clean:
	rm -rf lib
	rm -rf crates/*/out
