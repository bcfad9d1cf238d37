VERSION := $(shell cat VERSION)
PROGRAM = crates/livevec/out/livevec
DO = run
CRATE =
FEED =
WITH =
PREFIX = /usr/local
LIBDIR = $(PREFIX)/lib
CC = cc
LIB = build
SO = $(LIB)
# where an archive is put whose memory is an embedder's, and where the module for Redis is, with more flags for its compiler
EMBED = $(LIB)/embed
REDIS = $(LIB)
REDIS_FLAGS =
# what an embedder's program calls its malloc, realloc and free
MALLOC =
REALLOC =
FREE =
# what livevec.h includes
C_PARTS = $(addprefix include/livevec_,refusals.h records.h vectors.h reductions.h queries.h summaries.h jobs.h boards.h series.h series_kinds.h samples.h transcripts.h shared.h)
# what livevec.hpp includes
CPP_PARTS = $(addprefix include/livevec_,base.hpp blocks.hpp board.hpp by_index.hpp columns.hpp jobs.hpp loading.hpp places.hpp queries.hpp samples.hpp series.hpp series_columns.hpp shared.hpp subscriber.hpp summary.hpp transcripts.hpp)
# what programs that are linked with liblivevec.so ask for: another number where they would no longer run
SONAME = liblivevec.so.2
# tells the system's loader what was installed, where that is allowed and nothing is only staged
LDCONFIG = ldconfig
# with UNPROVED=1 what is installed is built without its proofs, in minutes
UNPROVED =
ifneq ($(UNPROVED),)
PROGRAM = build/unproved/livevec
LIB = build/unproved
endif
# whether an archive was built with its proofs: one that was not has a symbol that says so
is_proved = $(shell grep -qaF livevec_not_proved "$(LIB)/liblivevec.a" && echo no || echo yes)

# the prefix as a path from a file below LIBDIR: its folder's name there, then the folder; whole where LIBDIR isn't below the prefix
from_here = $(shell lib="$(LIBDIR)"; if [ "$${lib#"$(PREFIX)/"}" != "$$lib" ]; then echo '$(1)/'"$$(realpath -m -s --relative-to="$$lib/$(2)" "$(PREFIX)")"; else echo "$(PREFIX)"; fi)

# one target after the other: two would prove the same crates
.NOTPARALLEL:
.PHONY: help try build run test prove check lib so embed redis test-c test-bindings docs dist install install-program install-lib whole-paths uninstall wrong plant soak bench bench-board bench-bindings bench-engines bench-redis dashboard fmt clean

help: ## lists what can be made
	@sed -n 's/^\([a-z-]*\):.*## \(.*\)/\1|\2/p' Makefile | awk -F '|' '{ printf "make %-15s %s\n", $$1, $$2 }'

try: ## runs `livevec run`, or what DO=.. says, without proofs; built once for the sources
	@tools/unproved program
	@build/unproved/livevec $(DO)

build: ## proves the program, then builds it
	@tools/build

run: $(PROGRAM) ## runs the proved program on the lines that are typed
	@$(PROGRAM) run

ifeq ($(UNPROVED),)
$(PROGRAM):
	@$(MAKE) -s build >&2
else
.PHONY: $(PROGRAM) $(LIB)/liblivevec.a
$(PROGRAM):
	@tools/unproved program

$(LIB)/liblivevec.a:
	@CC="$(CC)" tools/unproved library
endif

test: ## runs every test, row, example, page and binding, without proofs; with CRATE=.. only that crate's tests
	@CC="$(CC)" tools/with_time test$(addprefix -,$(CRATE)) "runs $(if $(CRATE),the tests of $(CRATE),every test) without proofs" "$(if $(CRATE),1 to 3 min,8 to 12 min on 4 processors)" tools/test $(addprefix --crate ,$(CRATE))

prove: ## every proof, every wrong body, memory refused in turn; with CRATE=.. proofs and wrong bodies of that crate and those below
ifeq ($(CRATE),)
	@CC="$(CC)" tools/with_time prove "proves all crates, tries the wrong bodies, refuses memory in turn" "70 min on 4 quiet processors" tools/prove
else
	@tools/with_time prove-$(CRATE) "proves $(CRATE) and what lies below it, tries their wrong bodies" "1 to 60 min, by how high the crate stands" tools/prove $(CRATE)
endif

check: ## proves one crate, CRATE=.., and tells the time of each function
	@[ -d "crates/$(CRATE)/src" ] && [ -n "$(CRATE)" ] || { echo "usage: make check CRATE=NAME, with NAME one of" $$(ls crates) >&2; exit 2; }
	@tools/with_time check-$(CRATE) "proves what changed in $(CRATE), and what lies below it" "1 to 15 min at first, by how high the crate stands" tools/check_crate $(CRATE)

lib: ## proves the exports for C, then makes build/liblivevec.a
	@CC="$(CC)" tools/c_library

build/liblivevec.a:
	@$(MAKE) -s lib >&2

so: $(SO)/liblivevec.so ## makes build/liblivevec.so of the archive

$(SO)/liblivevec.so: $(LIB)/liblivevec.a bindings/exports.map bindings/c/threads_unknown.c
	@mkdir -p $(SO)
	@$(CC) -shared -fPIC -o $@ bindings/c/threads_unknown.c -Wl,--whole-archive $< -Wl,--no-whole-archive -Wl,--version-script=bindings/exports.map -Wl,-soname,$(SONAME) -Wl,-z,defs
	@ln -f $(SO)/liblivevec.so $(SO)/$(SONAME)

embed: $(LIB)/liblivevec.a ## makes build/embed/liblivevec.a, whose memory comes from MALLOC=.. REALLOC=.. FREE=.., functions of yours
	@[ -n "$(MALLOC)" ] && [ -n "$(REALLOC)" ] && [ -n "$(FREE)" ] || { echo "usage: make embed MALLOC=my_malloc REALLOC=my_realloc FREE=my_free" >&2; exit 2; }
	@mkdir -p $(EMBED)
	@objcopy --redefine-sym malloc=$(MALLOC) --redefine-sym realloc=$(REALLOC) --redefine-sym free=$(FREE) $(LIB)/liblivevec.a $(EMBED)/liblivevec.a

redis: $(REDIS)/livevec_redis.so ## makes build/livevec_redis.so, a module for redis-server; with UNPROVED=1 build/unproved/livevec_redis.so

$(REDIS)/livevec_redis.so: $(LIB)/liblivevec.a $(wildcard bindings/redis/*.[ch] include/*.h)
	@mkdir -p $(REDIS)
	@$(MAKE) -s embed EMBED=$(REDIS)/redis MALLOC=livevec_redis_malloc REALLOC=livevec_redis_realloc FREE=livevec_redis_free
	@$(CC) -std=c11 -O2 -g -Wall -Wextra -pedantic -fPIC -shared -fvisibility=hidden $(REDIS_FLAGS) -Iinclude bindings/redis/*.c -o $@ \
		-Wl,--exclude-libs,ALL $(REDIS)/redis/liblivevec.a

test-c: build/liblivevec.a ## tests the library for C, also under sanitizers and valgrind
	@tools/with_time test-c "tests the library for C, plainly, under sanitizers and under valgrind" "some 2 min" env CC="$(CC)" bindings/c/check

dashboard: so ## serves live charts of FEED=.., or of this machine, in a browser; WITH=.. are more options
	@export LIVEVEC_LIB="$(abspath $(SO))/liblivevec.so" PYTHONPATH=bindings/python; \
	if [ -n "$(FEED)" ]; then exec python3 -m livevec_dashboard "$(FEED)" $(WITH); \
	else examples/machine_load.py | python3 -m livevec_dashboard - --title "this machine" $(WITH); fi

test-bindings: ## tests C++, Rust, Python, MPI, Dask, the module for Redis and what was installed
	@tools/with_time test-bindings "tests C++, Rust, Python, MPI, Dask, the module for Redis and what is installed" "some 5 min" bindings/check

docs: ## makes build/docs of the sources, without proofs: pages of C, C++, Rust, Python and the program
	@tools/docs $(LIB)

dist: build lib so ## packs what was proved and built into build/livevec-VERSION-PLATFORM.tar.gz, and the sources
	@tools/dist

install: install-program install-lib ## installs program, library and headers below PREFIX, as they were built; with UNPROVED=1 without proofs
	@echo "installed below $(DESTDIR)$(PREFIX)$(if $(findstring no,$(is_proved)),: NOT PROVED)"

whole-paths:
	@case "$(PREFIX) $(LIBDIR)" in /*\ /*) ;; *) echo "PREFIX and LIBDIR are whole paths, from / on" >&2; exit 1;; esac

install-program: whole-paths $(PROGRAM) ## installs only the program and its manual page
	@install -d "$(DESTDIR)$(PREFIX)/bin" "$(DESTDIR)$(PREFIX)/share/man/man1"
	@install -m 755 $(PROGRAM) "$(DESTDIR)$(PREFIX)/bin/livevec"
	@install -m 644 docs/livevec.1 "$(DESTDIR)$(PREFIX)/share/man/man1/livevec.1"

install-lib: whole-paths $(LIB)/liblivevec.a $(SO)/liblivevec.so ## installs all but the program
	@install -d "$(DESTDIR)$(PREFIX)/include" "$(DESTDIR)$(LIBDIR)/pkgconfig" "$(DESTDIR)$(LIBDIR)/cmake/livevec"
	@install -m 644 include/livevec.h include/livevec.hpp include/livevec_mpi.h include/livevec_mpi_refusals.h "$(DESTDIR)$(PREFIX)/include"
	@install -m 644 $(LIB)/liblivevec.a "$(DESTDIR)$(LIBDIR)/liblivevec.a"
	@install -m 644 $(C_PARTS) $(CPP_PARTS) "$(DESTDIR)$(PREFIX)/include"
	@install -m 755 $(SO)/liblivevec.so "$(DESTDIR)$(LIBDIR)/$(SONAME)"
	@ln -sf $(SONAME) "$(DESTDIR)$(LIBDIR)/liblivevec.so"
	@sed 's|@VERSION@|$(VERSION)|; s|@PROVED@|$(is_proved)|; s|@PREFIX@|$(call from_here,$${pcfiledir},pkgconfig)|; s|@LIBDIR@|$${pcfiledir}/..|' bindings/c/livevec.pc.in > "$(DESTDIR)$(LIBDIR)/pkgconfig/livevec.pc"
	@sed 's|@VERSION@|$(VERSION)|; s|@PROVED@|$(is_proved)|; s|@PREFIX@|$(call from_here,$${_livevec_here},cmake/livevec)|' bindings/c/livevecConfig.cmake.in > "$(DESTDIR)$(LIBDIR)/cmake/livevec/livevecConfig.cmake"
	@sed 's|@VERSION@|$(VERSION)|' bindings/c/livevecConfigVersion.cmake.in > "$(DESTDIR)$(LIBDIR)/cmake/livevec/livevecConfigVersion.cmake"
	@chmod 644 "$(DESTDIR)$(LIBDIR)/pkgconfig/livevec.pc" "$(DESTDIR)$(LIBDIR)/cmake/livevec/livevecConfig.cmake" "$(DESTDIR)$(LIBDIR)/cmake/livevec/livevecConfigVersion.cmake"
	@[ -n "$(DESTDIR)" ] || $(LDCONFIG) 2> /dev/null || true

# its folders go too where they have nothing else: the place was livevec's own then
uninstall: whole-paths ## takes away what was installed below PREFIX
	@rm -f "$(DESTDIR)$(PREFIX)/bin/livevec" "$(DESTDIR)$(PREFIX)/include/livevec.h" "$(DESTDIR)$(PREFIX)/include/livevec.hpp" "$(DESTDIR)$(PREFIX)/include/livevec_mpi.h" "$(DESTDIR)$(PREFIX)/include/livevec_mpi_refusals.h" "$(DESTDIR)$(LIBDIR)/liblivevec.a"
	@rm -f "$(DESTDIR)$(LIBDIR)/$(SONAME)" "$(DESTDIR)$(LIBDIR)/liblivevec.so" "$(DESTDIR)$(LIBDIR)/pkgconfig/livevec.pc"
	@rm -f "$(DESTDIR)$(LIBDIR)/cmake/livevec/livevecConfig.cmake" "$(DESTDIR)$(LIBDIR)/cmake/livevec/livevecConfigVersion.cmake"
	@rm -f "$(DESTDIR)$(PREFIX)/share/man/man1/livevec.1"
	@rm -f $(patsubst include/%,"$(DESTDIR)$(PREFIX)/include/%",$(C_PARTS) $(CPP_PARTS))
	@rmdir "$(DESTDIR)$(LIBDIR)/cmake/livevec" "$(DESTDIR)$(LIBDIR)/cmake" 2> /dev/null || true
	@rmdir "$(DESTDIR)$(PREFIX)/share/man/man1" "$(DESTDIR)$(PREFIX)/share/man" "$(DESTDIR)$(PREFIX)/share" 2> /dev/null || true
	@[ -n "$(DESTDIR)" ] || $(LDCONFIG) 2> /dev/null || true
	@top="$(DESTDIR)$(PREFIX)" lib="$(DESTDIR)$(LIBDIR)"; \
	if [ -d "$$top" ] && [ -z "$$(find "$$top" -mindepth 1 ! -path "$$top/bin" ! -path "$$top/include" ! -path "$$lib" ! -path "$$lib/pkgconfig")" ]; then \
		for folder in "$$lib/pkgconfig" "$$lib" "$$top/include" "$$top/bin" "$$top"; do rmdir "$$folder" 2> /dev/null || true; done; \
	fi

wrong: ## tries the wrong bodies outside the gate, those of CRATE=.. or all
	@tools/with_time wrong-tests-$(CRATE) "tries wrong bodies that a test refuses" "1 to 10 min" tools/tried tests $(CRATE)
	@tools/with_time wrong-$(CRATE) "tries wrong bodies, those of a crate together" "1 to 60 min" tools/tried more $(CRATE)

plant: ## looks for wrong bodies that the contracts of CRATE=.. let through
	@[ -d "crates/$(CRATE)/src" ] && [ -n "$(CRATE)" ] || { echo "usage: make plant CRATE=NAME, with NAME one of" $$(ls crates) >&2; exit 2; }
	@cd crates/$(CRATE) && ../../tools/with_time plant-$(CRATE) "looks for wrong bodies that the contracts of $(CRATE) let through" "up to 60 min" rt plant --max 2000 --minutes 60

soak: ## hard use: millions of lines, many threads, strange bytes, kills, refused memory
	@tools/with_time soak "tries hard use, part by part" "5 to 13 min, once its programs are proved" tools/soak

bench: build ## times it beside plain Rust, and makes the tables and the picture of the pages
	@tools/with_time bench "times livevec beside plain Rust, a line for each pair" "some 15 min, once its two programs are proved" bench/run
	@bench/table
	@bench/picture

bench-board: ## times the board beside a lock
	@tools/with_time bench-board "times the board beside a lock, a line for each pair" "some 5 min, once its program is proved" bench/run board

bench-bindings: ## times calls from C and C++
	@tools/with_time bench-bindings "times calls from C and C++, a line for each pair" "some 2 min" bench/run bindings

bench-engines: ## times MPI over several processes beside plain loops and MPI's own sum
	@tools/with_time bench-engines "times MPI over 1, 2 and 4 processes beside plain loops and MPI_SUM" "some 2 min" bench/run engines

bench-redis: redis ## times the module for Redis beside lists, sorted sets and scripts of Redis
	@LIVEVEC_REDIS="$(abspath $(REDIS))/livevec_redis.so" tools/with_time bench-redis "times the module for Redis by redis-benchmark, a line for each row" "some 3 min" bench/redis

fmt: ## formats each crate
	@for crate in crates/*/; do echo "formats $$crate"; (cd $$crate && rt fmt); done

clean: ## removes what was built, and what checks kept here
	@rm -rf crates/*/out bench/out build
