# The library for C and C++. It stands on the Rattle kit (`rt`) and a C compiler. Beside each target stands how long it
# takes; what is proved on a machine once is kept there, and is not proved again.
#
#   make                         prove and build the archive, target/staticlib/libyildegga.a
#                                (minutes, many of them, the first time; then some seconds)
#   make install PREFIX=FOLDER   header, archive and pkg-config file (/usr/local; DESTDIR, INCLUDEDIR and LIBDIR are as
#                                elsewhere; a second once the archive is there)
#   make uninstall PREFIX=FOLDER take them away (no time)
#   make examples                build c/examples into target/examples (a second once the archive is there)
#   make clean                   remove the archive and the examples; the proofs stay (no time)
#   make quick                   prove the crates that changed against the last commit, and run the tests that need no
#                                build: of the layout, the documents, the pages of theorems and what edits say
#                                (some seconds, and what the changed crates take: seconds to minutes for each)
#   make check                   the gate, .ci/run: all proofs, all must-fail edits, all programs and all tests
#                                (minutes, many of them, the longer the more has changed)

PREFIX = /usr/local
INCLUDEDIR = $(PREFIX)/include
LIBDIR = $(PREFIX)/lib
CFLAGS = -O2 -Wall -Wextra

ifneq ($(words $(PREFIX)) $(words $(INCLUDEDIR)) $(words $(LIBDIR)),1 1 1)
$(error PREFIX, INCLUDEDIR and LIBDIR are each one folder, with no space in its name)
endif
ifneq ($(strip $(foreach sign,& | \,$(findstring $(sign),$(PREFIX)$(INCLUDEDIR)$(LIBDIR)))),)
$(error a folder with one of the signs & | \ in its name is not taken)
endif

ARCHIVE = target/staticlib/libyildegga.a
EXAMPLES = $(patsubst c/examples/%.c,target/examples/%,$(wildcard c/examples/*.c))
PROVED = crates.txt $(shell find crates '(' -name must-fail -o -name out ')' -prune -o -type f -print)

HEADER_THERE = $(DESTDIR)$(abspath $(INCLUDEDIR))/yildegga.h
ARCHIVE_THERE = $(DESTDIR)$(abspath $(LIBDIR))/libyildegga.a
PC_THERE = $(DESTDIR)$(abspath $(LIBDIR))/pkgconfig/yildegga.pc

archive: $(ARCHIVE)

$(ARCHIVE): $(PROVED)
	cd crates/yildegga && rt lib --cpu x86-64
	@mkdir -p $(@D)
	cp crates/yildegga/out/libyildegga.a $@

install: $(ARCHIVE)
	install -D -m 644 c/include/yildegga.h '$(HEADER_THERE)'
	install -D -m 644 $(ARCHIVE) '$(ARCHIVE_THERE)'
	sed -e 's|@PREFIX@|$(abspath $(PREFIX))|' -e 's|@INCLUDEDIR@|$(abspath $(INCLUDEDIR))|' \
	    -e 's|@LIBDIR@|$(abspath $(LIBDIR))|' c/yildegga.pc.in | install -D -m 644 /dev/stdin '$(PC_THERE)'

uninstall:
	rm -f '$(HEADER_THERE)' '$(ARCHIVE_THERE)' '$(PC_THERE)'

examples: $(EXAMPLES)

target/examples/%: c/examples/%.c c/examples/caller.h c/include/yildegga.h $(ARCHIVE)
	@mkdir -p target/examples
	$(CC) -std=c99 $(CFLAGS) -Ic/include -o $@ $< $(ARCHIVE)

clean:
	rm -rf target/examples $(ARCHIVE)

# The crates whose files, or whose lines in crates.txt, are changed or new against the last commit, in its order.
quick:
	@mkdir -p target; failed=0; \
	python3 tests/run.py repository: edits: documents: pages: || failed=1; \
	changed=$$({ git diff --name-only HEAD -- crates; git ls-files --others --exclude-standard -- crates; } | \
	        sed -n -E 's,^crates/([^/]+)/(src|specs|proofs)/.*,\1,p'; \
	    git diff -U0 HEAD -- crates.txt | sed -n -E 's/^\+([a-z]\w*)[^#]*:.*/\1/p'); \
	for crate in $$(sed -n -E 's/^([a-z]\w*)[^#]*:.*/\1/p' crates.txt); do \
	    case " $$(echo $$changed) " in *" $$crate "*) ;; *) continue;; esac; \
	    if (cd crates/$$crate && rt check) </dev/null >target/quick.log 2>&1; then \
	        echo "ok    rt check: $$crate"; \
	    else \
	        cat target/quick.log; echo "FAIL  rt check: $$crate"; failed=1; \
	    fi; \
	done; \
	exit $$failed

check:
	.ci/run

.PHONY: archive install uninstall examples clean quick check
