# make               the library for C, target/lib/libkeekaboor.a (tools/archives)
# make install       library, header and pkg-config file under PREFIX, for a packager below DESTDIR
# make uninstall     takes these three away
# make bench         the cover by either search, beside the same method plainly written and the quickest form by hand; one final set by itself

PREFIX = /usr/local
DESTDIR =
VERSION = 0.1.0

place = $(DESTDIR)$(PREFIX)

.PHONY: library install uninstall bench

library:
	@tools/archives

install:
	@library=$$(tools/archives) && \
	install -d "$(place)/include" "$(place)/lib/pkgconfig" && \
	install -m 644 include/keekaboor.h "$(place)/include/" && \
	install -m 644 "$$library" "$(place)/lib/" && \
	awk -v prefix="$(PREFIX)" -v version="$(VERSION)" \
	    '/@PREFIX@/ { print "prefix=" prefix; next } { sub(/@VERSION@/, version); print }' \
	    keekaboor.pc.in >"$(place)/lib/pkgconfig/keekaboor.pc" && \
	chmod 644 "$(place)/lib/pkgconfig/keekaboor.pc"

uninstall:
	@rm -f "$(place)/include/keekaboor.h" "$(place)/lib/libkeekaboor.a" "$(place)/lib/pkgconfig/keekaboor.pc"

bench:
	@cd rust && cargo run --quiet --release --offline --locked --bin bench
