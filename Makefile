# make          builds bin/rope-search, the proved program
# make demo     runs it on the commands of examples/first.session, and shows each with its reply; if it
#               isn't built, rt runs it with checks instead of proofs, within two minutes
# make quick CRATES=NAME
#               during a change: formats and proves the crate, after those below it, and runs the test functions of the
#               nearest crate of tests above it, compiled with checks
# make check    before a commit: formats, proves and tests the crates that changed and every crate above
#               them, using results of earlier runs, with the programs, and the gate's must-fail edits of
#               the files that changed. CRATES='NAME ..' adds crates
# make test     runs all tests without proofs, in ten minutes in a fresh clone on four cores: the programs are
#               compiled with checks; a current bin/rope-search and library, which are proved, are tested
#               instead
# make gate     proves and tests everything, uses nothing in out/, tries the must-fail edits, then tests the
#               built program and library and what is compiled with checks
# make edits    tries all must-fail edits: those in crates/NAME/must-fail-gate, which the gate tries too, and
#               those in crates/NAME/must-fail-more. CRATES='NAME ..' chooses crates, or files as
#               NAME/src/FILE; JOBS=N tries N crates at a time
# make lib      builds the library for C, bin/librope_search.a, the shared bin/librope_search.so, and
#               bin/rope_search.pc for pkg-config; include/rope_search.h declares it
# make web      builds the library as a WebAssembly module, bin/rope_search.wasm, from files that the build
#               of the library leaves: nothing is proved again, and this step is not proved
# make install  installs the program, its manual, the library with its header and modules, the WebAssembly
#               module and the pages below PREFIX (/usr/local), or below DESTDIR followed by PREFIX
# make release  packs the same as bin/rope-search-VERSION-x86_64-linux.tar.gz, for users without the kit, with
#               all pages, the examples and the modules in their folders, so that links work and examples run
# make bench    measures texts, reports, edits, ropes, patterns and searches. TOPICS='NAME ..' chooses topics
#               of bench/topics.py; TOPICS=--write puts the figures into bench/RESULTS.md
# make clean    removes what these made

# The version of the program and the library. A test compares it with the manifests of bindings/rust and
# bindings/node.
version := $(shell cat VERSION)
# The name under which a program finds the shared library when it runs. Before 1.0 it ends in the first two numbers of
# the version.
soname := librope_search.so.$(basename $(version))
PREFIX ?= /usr/local

# The command of the Rattle kit; make RT=PROGRAM names another.
RT ?= rt
program := bin/rope-search
# Programs that only tests use, compiled with checks and not proved.
drivers := bin/run-driver bin/rope-driver bin/search-driver
programs := $(program) $(drivers)
session := examples/first.session
sources := crates.txt $(shell find crates -name out -prune -o -type f \
	\( -name '*.rt' -o -name '*.antt' \) -print 2>/dev/null)
missing := the command '$(RT)' was not found: install the Rattle kit and put its folder bin on PATH
need_rt = $(if $(shell command -v $(RT) 2>/dev/null),,$(error $(missing)))

# Shows from the output of rt: the crate that it proves, its progress, and each crate that is done.
news := sed -unE -e 's/^rt: chose .* for (.*)/\1/p' -e 's/^so far: ([0-9]+ of [0-9]+ functions).*/    \1/p' \
	-e 's/^(logic=[^ ]+ functions=[0-9]+).*/    \1/p'

.PHONY: all programs lib web demo quick check test gate edits bench install release clean
.DELETE_ON_ERROR:

all: $(program)

$(program): minutes := an hour or two on four cores
bin/librope_search_c.a: minutes := an hour or two on four cores

programs: $(programs)

# rt builds a program only after it and all crates below it are proved, and then runs it, here on empty
# input. The output of rt is in out/rt.log of the program's crate.
$(program): $(sources)
	@:$(need_rt)
	@echo '$@ is built once all its crates are proved: $(minutes) in a fresh clone, seconds where nothing changed'
	@mkdir -p $(@D) crates/rope_search_cli/out
	@cd crates/rope_search_cli && { $(RT) run < /dev/null 2>&1; echo $$? > out/rt.status; } | tee out/rt.log | $(news)
	@cd crates/rope_search_cli && [ "$$(cat out/rt.status)" = 0 ] || { tail -n 40 out/rt.log; false; }
	@RT='$(RT)' tools/check --stamp
	@cp crates/rope_search_cli/out/rope_search_cli $@.new && mv $@.new $@

# A minute or two each, seconds if no source changed.
$(drivers): bin/%: $(sources) tools/compile tests/compiled/list.txt $(shell find tests/compiled -name '*.rt.txt')
	@:$(need_rt)
	@RT='$(RT)' tools/compile $(subst -,_,$*) $@

lib: bin/librope_search.a bin/librope_search.so bin/rope_search.pc

# The static library as rt builds it, after it and all crates below it are proved.
bin/librope_search_c.a: $(sources)
	@:$(need_rt)
	@echo '$@ is built once all its crates are proved: $(minutes) in a fresh clone, seconds where nothing changed'
	@mkdir -p $(@D) crates/rope_search_c/out
	@cd crates/rope_search_c && { $(RT) lib 2>&1; echo $$? > out/rt.status; } | tee out/rt.log | $(news)
	@cd crates/rope_search_c && [ "$$(cat out/rt.status)" = 0 ] || { tail -n 40 out/rt.log; false; }
	@cp crates/rope_search_c/out/librope_search_c.a $@.new && mv $@.new $@

# The kit's calls of malloc, which the library uses.
heap = $(dir $(shell $(RT) doc))c/liblibc_c.a

bin/librope_search.a: bin/librope_search_c.a
	@:$(need_rt)
	@rm -f $@.new && printf 'create $@.new\naddlib $<\naddlib $(heap)\nsave\nend\n' | $(AR) -M && mv $@.new $@

# It exports the calls of include/rope_search.h and nothing else.
bin/librope_search.so: bin/librope_search_c.a VERSION
	@:$(need_rt)
	@printf '{ global: rope_search_*; local: *; };\n' > $@.map
	@$(CC) -shared -o $@.new -Wl,-soname,$(soname) -Wl,--version-script,$@.map \
		-Wl,--whole-archive $< -Wl,--no-whole-archive $(heap) && rm $@.map && mv $@.new $@
	@ln -sf $(@F) bin/$(soname)

bin/rope_search.pc: bin/librope_search.a VERSION
	@printf 'prefix=%s\nName: rope_search\nDescription: %s\nVersion: %s\nCflags: -I$${prefix}/include\nLibs: -L$${prefix}/bin -lrope_search\n' \
		'$(CURDIR)' 'a regular expression kept live over a text that is edited' '$(version)' > $@.new && mv $@.new $@

web: bin/rope_search.wasm

# The bitcode that the kit's clang compiled for the library. The proof that rt lib left is reused. If tools/static built
# the library, this file is there already.
bin/librope_search_c.bc: bin/librope_search_c.a
	@:$(need_rt)
	@RT='$(RT)' tools/static --bitcode rope_search_c '$(CURDIR)' $@ crates/rope_search_c/out/incremental

bin/rope_search.wasm: bin/librope_search_c.bc $(addprefix bindings/web/,build retarget.py heap.c)
	@:$(need_rt)
	@RT='$(RT)' bindings/web/build $< $@

# What is installed below $(root), where the modules look for the library in lib/.
root = $(DESTDIR)$(PREFIX)
pages := README.md CHANGELOG.md LICENSE-APACHE LICENSE-MIT NOTICE docs/protocol.md docs/patterns.md docs/embedding.md

define put_down
	@install -d '$(root)/bin' '$(root)/include' '$(root)/lib/pkgconfig' '$(root)/share/man/man1' \
		'$(root)/share/doc/rope-search' '$(root)/share/rope-search'
	@install -m 755 $(program) '$(root)/bin'
	@install -m 644 include/rope_search.h '$(root)/include'
	@install -m 644 bin/librope_search.a '$(root)/lib'
	@install -m 755 bin/librope_search.so '$(root)/lib/$(soname)'
	@ln -sf $(soname) '$(root)/lib/librope_search.so'
	@sed -e 's|^prefix=.*|prefix=$${pcfiledir}/../..|' -e 's|/bin -l|/lib -l|' bin/rope_search.pc > '$(root)/lib/pkgconfig/rope_search.pc'
	@sed 's/@VERSION@/$(version)/' docs/rope-search.1 > '$(root)/share/man/man1/rope-search.1'
	@install -m 644 $(pages) '$(root)/share/doc/rope-search'
	@install -m 644 bindings/python/rope_search.py bindings/lua/rope_search.lua '$(root)/share/rope-search'
	@install -d '$(root)/share/rope-search/rust/src' '$(root)/share/rope-search/node' '$(root)/share/rope-search/web'
	@install -m 644 bindings/rust/Cargo.toml bindings/rust/build.rs '$(root)/share/rope-search/rust'
	@install -m 644 bindings/rust/src/*.rs '$(root)/share/rope-search/rust/src'
	@install -m 644 bindings/node/package.json bindings/node/*.js bindings/node/*.ts '$(root)/share/rope-search/node'
	@install -m 644 bindings/web/package.json bindings/web/*.js bindings/web/*.ts bin/rope_search.wasm \
		'$(root)/share/rope-search/web'
endef

install: $(program) lib web
	$(put_down)

release := rope-search-$(version)-x86_64-linux
packed := README.md CHANGELOG.md CONTRIBUTING.md LICENSE-APACHE LICENSE-MIT NOTICE VERSION docs examples bindings \
	bench/RESULTS.md bench/plain/src crates.txt $(wildcard crates/*/README.md)

# The folder of the archive; the tests use their own.
RELEASES ?= bin

release: root = $(RELEASES)/$(release)
release: $(program) lib web
	@rm -rf '$(root)' '$(root).tar.gz'
	$(put_down)
	@rm -r '$(root)/share/doc'
	@install -m 644 bin/rope_search.wasm '$(root)/bin'
	@tar --exclude=__pycache__ --exclude=target --exclude=node_modules --exclude=Cargo.lock -cf - $(packed) | tar -C '$(root)' -xf -
	@tar -C '$(RELEASES)' --sort=name --owner=0 --group=0 --numeric-owner -czf '$(root).tar.gz' $(release)
	@rm -rf '$(root)'
	@echo '$(root).tar.gz'

demo:
	@$(if $(wildcard $(program)),,:$(need_rt))
	@RT='$(RT)' examples/demo.py $(session)

quick:
	@:$(need_rt)
	@$(if $(CRATES),,$(error name the crate, as make quick CRATES=rope_search))
	@RT='$(RT)' JOBS='$(JOBS)' tools/check --quick $(CRATES)

check:
	@:$(need_rt)
	@RT='$(RT)' JOBS='$(JOBS)' MAKE='$(MAKE)' tools/check $(CRATES)

test:
	@:$(need_rt)
	@RT='$(RT)' JOBS='$(JOBS)' MAKE='$(MAKE)' tools/test

gate:
	@:$(need_rt)
	@RT='$(RT)' JOBS='$(JOBS)' tools/gate

edits:
	@:$(need_rt)
	@RT='$(RT)' JOBS='$(or $(JOBS),1)' tools/edits $(CRATES)

bin/bench: $(program) bench/build $(shell find bench/program -type f)
	@:$(need_rt)
	@echo '$@ is built once it is proved: some ten minutes, once its libraries are'
	@mkdir -p bench/out && { RT='$(RT)' bench/build > bench/out/rt.log 2>&1 || { tail -n 40 bench/out/rt.log; false; }; }

# The plain program that is measured for comparison; it is left out if cargo or Debian's librust-regex+default-dev is
# missing.
bin/plain: bench/plain/src/main.rs bench/plain/Cargo.toml
	@mkdir -p $(@D)
	cd bench/plain && cargo build --quiet --release --offline --target-dir ../out/plain
	@cp bench/out/plain/release/plain $@.new && mv $@.new $@

bench: $(program) bin/bench bin/librope_search.a bin/librope_search.so
	-@$(MAKE) --no-print-directory bin/plain
	@bench/run $(TOPICS)

clean:
	rm -rf bin bench/out $(wildcard crates/*/out)
