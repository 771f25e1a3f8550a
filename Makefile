# make          proves the programs with all that they use, and builds them: bin/tp and bin/samples (half an hour on four
#               cores the first time); `make bin/tp` builds nothing else. It keeps 7 GB and more in crates/*/out, and while it runs as
#               much again in the temporary folder (TMPDIR)
# make demo     two runs of the program, without proofs, on the cases of tools/data/demo (a minute)
# make try      the programs and the library without proofs, in unproved/bin and unproved/lib; `--version` says so (some minutes)
# make test     every test and every program, without proofs: those in C, C++, Fortran and Python with the library of
#               `make lib`, and the cases of the programs with those of `make` (some minutes; see docs/GATE.md)
# make mpi      tree search with the detector for distributed programs, Cholesky with a task graph in each process, and one task graph
#               over all processes, over Open MPI and MPICH, up to 16 processes (some minutes); then the Python programs over MPI, and the
#               checker of MPI programs
# make ompt     of these only lib/libgerfmuod_ompt.so, which checks the tasks of OpenMP programs (docs/OPENMP-PROGRAMS.md)
# make gate     the gate: every proof, its mutants, each test, each program (see docs/GATE.md; ANEW=1: all from scratch, also with
#               a toolchain whose `rt ci` reuses what an earlier run on this machine passed)
# make mutants  tries all mutants of the crates that changed (ALL=1: of every crate; CRATE=tp_wave: of one)
# make times    the gate, and the processor time that it takes
# make soak     runs sample pools 600 times, half of them at 8 nodes with 8 workers each, compares the outputs and audits the traces;
#               then runs the program with unusual streams and texts, at a terminal, with every stored text truncated after
#               each byte, and with random texts; the programs over borrowed data at a terminal; and random calls of the
#               library for C, compared with a model
# make lib      proves the library for other languages, and builds it: lib/libgerfmuod.a, libgerfmuod.so.0, the headers for C
#               and C++, the module for Fortran and a pkg-config file; the checkers of MPI and OpenMP programs, if mpicc or clang's
#               OpenMP is installed
# make bench    measures the cost of a step that a program in C reports to the library, and compares all programs with others
#               that do the same; the quick form takes some minutes (FULL=1: all cases, stored as the numbers of
#               docs/PERFORMANCE.md; see bench/README.md)
# make docs     writes the contracts of each crate to out/contracts, and draws the pictures of docs/figures again: runs by bin/samples, Cholesky by the library of make lib (without it,
#               its picture stays), plots and the crates by matplotlib and graphviz (tools/bench-packages)
# make install  installs what a user needs of them (tools/install): the proved programs and the library, with the manual (if pandoc and
#               help2man are installed), completion, examples, the pages for users, and packages for pkg-config and CMake. It takes DESTDIR, PREFIX
#               (/usr/local), EXEC_PREFIX, BINDIR, LIBDIR, INCLUDEDIR, DATADIR, MANDIR, DOCDIR and PYTHONDIR (defaults: below), also in
#               small letters; BUILT=FOLDER installs what is in FOLDER/bin and FOLDER/lib instead of building it
# make uninstall  removes what make install put there; it takes the same DESTDIR, PREFIX and DATADIR
# make release  packs the same files for others into DIST (dist/): a tarball, a wheel for Python and Debian's packages (tools/release;
#               BUILT=FOLDER as above). `make release-test` tries them, by the commands of docs/INSTALL.md, in a Debian of its own
#               without the toolchain, which debootstrap writes into ROOT the first time (~/.cache/gerfmuod/bookworm; needs root)
# make dist     packs the committed files into gerfmuod-VERSION.tar.gz
# make clean    removes everything that was proved and built
# The compilers of C, C++ and Fortran and their options are CC, CXX, FC, CFLAGS, CXXFLAGS, FFLAGS and LDFLAGS, of make or of the
# environment.
.PHONY: all lib demo try test mpi ompt gate mutants times soak bench docs install uninstall release release-test dist clean

all: bin/samples

# (expanded by the recipes that call it)
RT = $(or $(shell command -v rt),$(error rt is not on the path: it is part of the Rattle toolchain (README.md, From the sources)))

SOURCES := $(shell find crates -name out -prune -o \( -name '*.rt' -o -name '*.antt' \) -print)

bin/tp: $(SOURCES) crates.txt
	@tools/dev build tp

# (also builds bin/tp)
bin/samples: $(SOURCES) crates.txt
	@tools/dev build

MPICC ?= mpicc
MPI_CHECK := $(if $(shell command -v $(MPICC)),lib/libgerfmuod_mpi_check.so)
OMPT := $(shell clang -fopenmp -fsyntax-only -include omp-tools.h -xc /dev/null 2> /dev/null && echo lib/libgerfmuod_ompt.so)

lib: lib/libgerfmuod.a $(MPI_CHECK) $(OMPT)

HEADERS := $(wildcard capi/include/gerfmuod/* capi/fortran/*)

lib/libgerfmuod.a: $(SOURCES) crates.txt capi/include/gerfmuod.h $(HEADERS) $(wildcard capi/src/*.*)
	@tools/dev lib

lib/libgerfmuod_mpi_check.so: lib/libgerfmuod.a $(wildcard capi/preload/mpi/*)
	@MPICC=$(MPICC) tools/dev mpi-check --build lib

demo:
	cd crates/tp && $(RT) try --cases ../../tools/data/demo

try:
	@: $(RT)
	@tools/try tp library samples

test:
	@tools/dev test

mpi: lib/libgerfmuod.a
	@tools/dev mpi
	@tools/dev dag --processes 1 2 4 8 16
	@tools/dev mpi-check

ompt: lib/libgerfmuod_ompt.so

lib/libgerfmuod_ompt.so: lib/libgerfmuod.a $(wildcard capi/preload/openmp/*.[ch])
	@$(MAKE) --no-print-directory -s -C capi/preload/openmp

gate:
	$(RT) ci $(if $(ANEW),$$($(RT) help | grep -o -e --anew | head -n 1))

mutants:
	@tools/dev mutants $(if $(ALL),--all,$(CRATE))

times:
	@bash -c 'time $(MAKE) --no-print-directory gate'

soak: bin/samples lib/libgerfmuod.a
	tools/dev soak bin/tp
	tools/dev limits strange bin/tp
	tools/dev limits reasons bin/tp
	tools/dev limits cuts bin/tp
	tools/dev limits random bin/tp
	tools/dev limits progress
	tools/dev capi --full

bench: bin/samples lib/libgerfmuod.a
	@tools/dev capi --bench
	@tools/dev bench $(if $(FULL),--full --write,--quick)

docs: bin/samples
	@tools/dev contracts
	@tools/dev draw
	@tools/dev plot

BUILT ?= .
PREFIX ?= $(or $(prefix),/usr/local)
EXEC_PREFIX ?= $(or $(exec_prefix),$(PREFIX))
BINDIR ?= $(or $(bindir),$(EXEC_PREFIX)/bin)
LIBDIR ?= $(or $(libdir),$(EXEC_PREFIX)/lib)
INCLUDEDIR ?= $(or $(includedir),$(PREFIX)/include)
DATADIR ?= $(or $(datadir),$(PREFIX)/share)
MANDIR ?= $(or $(mandir),$(DATADIR)/man)
DOCDIR ?= $(or $(docdir),$(DATADIR)/doc/gerfmuod)
PYTHONDIR ?= $(or $(pythondir),$(LIBDIR)/gerfmuod/python)
VERSION = $(shell sed -n 's/^version = "\(.*\)"/\1/p' python/pyproject.toml)
FOLDERS := PREFIX EXEC_PREFIX BINDIR LIBDIR INCLUDEDIR DATADIR MANDIR DOCDIR PYTHONDIR
GIVEN = DESTDIR='$(abspath $(DESTDIR))' BUILT='$(abspath $(BUILT))' VERSION='$(VERSION)' \
        $(foreach name,$(FOLDERS),$(name)='$($(name))')

install: $(BUILT)/bin/samples $(BUILT)/lib/libgerfmuod.a
	@$(GIVEN) tools/install

uninstall:
	@$(GIVEN) tools/install --remove

DIST ?= dist
ROOT ?= $(HOME)/.cache/gerfmuod/bookworm

release: $(BUILT)/bin/samples $(BUILT)/lib/libgerfmuod.a
	@BUILT='$(abspath $(BUILT))' DIST='$(abspath $(DIST))' VERSION='$(VERSION)' tools/release

release-test: release
	@BUILT='$(abspath $(BUILT))' DIST='$(abspath $(DIST))' VERSION='$(VERSION)' ROOT='$(abspath $(ROOT))' tools/release-test

dist:
	git -c tar.umask=0022 archive --prefix=gerfmuod-$(VERSION)/ --output=gerfmuod-$(VERSION).tar.gz HEAD

clean:
	rm -rf bin lib unproved crates/*/out
