# Builds the library for C and its programs from the assembly in generated/ and from c/, with only a C compiler.
#
#   make             build/: libnoddychest.a, libnoddychest.so.1, pieces, recode and nody
#   make check       tests all of it; the last line is 'N passed, M failed'. ./check tests the packages too
#   make wheel       makes wheels of it in build/wheels, for Linux on both architectures and for Windows, as far as compilers are installed
#   make install     installs it below PREFIX, which has to be given, as PREFIX=/usr/local, in DESTDIR if that is given, with the man
#                    pages of the programs, which are nody-pieces, nody-recode and nody there, and prints what it wrote.
#                    CC, CPPFLAGS, CFLAGS and LDFLAGS default to those of the last make
#   make uninstall   removes it again, for the same PREFIX and DESTDIR
#   make dist        packs the sources, and what make builds of them, in build/dist
#   make dist-windows
#                    packs there what make builds for Windows
#   make clean       removes what was built
#
# CC, CPPFLAGS, CFLAGS and LDFLAGS are as usual; `make CC=aarch64-linux-gnu-gcc` builds for ARM. `make CC=x86_64-w64-mingw32-gcc` builds for
# Windows: libnoddychest.a, noddychest.dll with its import library libnoddychest.dll.a, pieces.exe, recode.exe and nody.exe. On a Mac it builds
# libnoddychest.1.dylib, libnoddychest.a and the programs, for the other CPU with CFLAGS='-O2 -arch x86_64' (python3 is needed).
# CURSES=no builds nody without `nody view`, which needs ncurses. BUILD is the folder of the output. `make check` puts RUN before each
# program that it runs, as in `make check RUN=qemu-aarch64-static`; LANES is the expected result of nody_lanes() there, 16 or 32.

# A step that fails leaves no half file, which the next `make` would take.
.DELETE_ON_ERROR:

BUILD ?= build
# `make install` installs what was built: the compiler and the flags default to those of the last make.
ifneq ($(filter install,$(MAKECMDGOALS)),)
LAST = $(shell sed -n $(1)p "$(BUILD)/target" 2>/dev/null)
ifeq ($(origin CC),default)
CC := $(or $(call LAST,2),$(CC))
endif
CPPFLAGS ?= $(call LAST,3)
CFLAGS ?= $(or $(call LAST,4),-O2)
LDFLAGS ?= $(call LAST,5)
endif
CFLAGS ?= -O2
AR = `$(CC) $(CFLAGS) -print-prog-name=ar`
unexport CDPATH

COMPILE = $(CC) $(CPPFLAGS) $(CFLAGS)
ASSEMBLE = $(CC) $(CFLAGS) `cat "$(BUILD)/jumps"` -c -o
# A program is linked as LDFLAGS say, a shared library never statically.
SHARED = for it in $(CFLAGS) $(LDFLAGS); do case $$it in -static|-static-pie|-pie) ;; *) set -- "$$@" "$$it" ;; esac; done
# The folder as make names it: a blank has a backslash before it.
NOTHING :=
BLANK := $(NOTHING) $(NOTHING)
IN := $(subst $(BLANK),\$(BLANK),$(BUILD))
LIBRARY = $(IN)/noddychest.o $(IN)/noddychest-v3.o $(IN)/processor.o

# What differs on Windows and on macOS: the assembly, and how files are called. (the assembly of Linux is another text there, with the same
# instructions)
MACHINE := $(shell $(CC) -dumpmachine 2>/dev/null)
TEXT = cp
PROTECTED = -fcf-protection
DYNAMIC = $(IN)/libnoddychest.so.1
# (windows.c has nothing in it for other systems)
SOURCES := $(wildcard c/nody/*.c)
ifneq ($(findstring mingw,$(MACHINE)),)
SYSTEM = -windows
EXE = .exe
PROTECTED =
DYNAMIC = $(IN)/noddychest.dll
SOURCES := $(filter-out %/follow.c %/posix.c %/rows.c %/seek.c %/text.c,$(SOURCES))
WINDOWS = -D_FILE_OFFSET_BITS=64 -municode -static -lshlwapi
CURSES = no
endif
ifneq ($(findstring apple,$(MACHINE)),)
TEXT = scripts/macho
PROTECTED =
DYNAMIC = $(IN)/libnoddychest.1.dylib
endif

# A text as one word of the shell, whatever it has.
QUOTED = '$(subst ','\'',$(1))'

all: $(IN)/libnoddychest.a $(DYNAMIC) $(IN)/pieces$(EXE) $(IN)/recode$(EXE) $(IN)/nody$(EXE)

# The CPU, and with what all is compiled: another compiler, or other flags, make all anew.
$(IN)/target: always
	@mkdir -p "$(BUILD)"
	@told=`printf '%s\n' '#if !defined __LP64__ && !defined _WIN64' '#elif defined __x86_64__' x86_64 '#elif defined __AARCH64EL__' aarch64 '#endif' | \
		$(CC) $(CFLAGS) -E -P -x c -` || exit 1; \
	processor=none; for processor in $$told; do :; done; \
	if [ ! -e "generated/pieces-$$processor$(SYSTEM).s" ]; then \
		echo "make: $(CC) $(CFLAGS) compiles for another processor: generated/ has x86_64 and aarch64, each with 64 bits" >&2; exit 1; \
	fi; \
	printf '%s\n' "$$processor" $(call QUOTED,$(CC)) $(call QUOTED,$(CPPFLAGS)) $(call QUOTED,$(CFLAGS)) $(call QUOTED,$(LDFLAGS)) >"$@.new"; \
	if cmp -s "$@.new" "$@"; then rm "$@.new"; else mv "$@.new" "$@"; fi

always:

# On x86-64 the option that keeps jumps off the ends of 32 bytes of code, as gcc or clang writes it; empty if there is none. Some
# CPUs of Intel are slow at such jumps (docs/DECISIONS.md).
$(IN)/jumps: $(IN)/target
	@read processor <"$(BUILD)/target" && for it in -Wa,-mbranches-within-32B-boundaries -mbranches-within-32B-boundaries; do \
		if [ $$processor = x86_64 ] && $(CC) $(CFLAGS) $$it -x assembler -c -o "$@.o" /dev/null 2>/dev/null; then \
			echo $$it && break; \
		fi; \
	done >"$@"; rm -f "$@.o"

$(IN)/noddychest.o: generated/noddychest-x86_64$(SYSTEM).s generated/noddychest-aarch64.s $(IN)/jumps
	read processor <"$(BUILD)/target" && $(TEXT) generated/noddychest-$$processor$(SYSTEM).s "$(BUILD)/noddychest.s" && \
	$(ASSEMBLE) "$@" "$(BUILD)/noddychest.s"

# The calls that validate, count and recode, for x86-64-v3 (for ARM an empty file, which no library gets).
$(IN)/noddychest-v3.o: generated/noddychest-x86_64$(SYSTEM)-v3.s $(IN)/jumps
	read processor <"$(BUILD)/target" && case $$processor in \
	x86_64) $(TEXT) generated/noddychest-x86_64$(SYSTEM)-v3.s "$(BUILD)/noddychest-v3.s" && $(ASSEMBLE) "$@" "$(BUILD)/noddychest-v3.s" ;; \
	*) : >"$@" ;; \
	esac

# (the library can be linked by who has no -flto; the assembly has the properties of -fcf-protection on x86-64)
$(IN)/processor.o: c/processor.c c/noddychest.h $(IN)/target
	read processor <"$(BUILD)/target" && case $$processor in x86_64) set -- $(PROTECTED) ;; *) set -- ;; esac && \
	$(COMPILE) -fPIC -fno-lto "$$@" -c -o "$@" c/processor.c

$(IN)/libnoddychest.a: $(LIBRARY)
	rm -f "$@"
	set --; for it in noddychest.o noddychest-v3.o processor.o; do \
		if [ -s "$(BUILD)/$$it" ]; then set -- "$$@" "$(BUILD)/$$it"; fi; \
	done; $(AR) rcs "$@" "$$@"

$(IN)/libnoddychest.so.1: $(IN)/libnoddychest.a c/noddychest.map
	$(SHARED); $(CC) "$$@" -shared -Wl,-soname,libnoddychest.so.1 -Wl,--version-script=c/noddychest.map -o "$@" \
	-Wl,--whole-archive "$(BUILD)/libnoddychest.a" -Wl,--no-whole-archive

$(IN)/libnoddychest.1.dylib: $(IN)/libnoddychest.a c/symbols.txt
	sed -n 's/^call .*[ *]\(nody_[a-z0-9_]*\)(.*/_\1/p' c/symbols.txt >"$(BUILD)/exported"
	$(SHARED); $(CC) "$$@" -dynamiclib -install_name @rpath/libnoddychest.1.dylib -compatibility_version 1 -current_version 1 \
	-Wl,-exported_symbols_list,"$(BUILD)/exported" -o "$@" -Wl,-all_load "$(BUILD)/libnoddychest.a"

# (c/symbols.txt lists the exports of the DLL; its import library is made with it. Its address does not depend on the folder)
$(IN)/noddychest.dll: $(IN)/libnoddychest.a c/symbols.txt
	{ echo EXPORTS; sed -n 's/^call .*[ *]\(nody_[a-z0-9_]*\)(.*/\1/p' c/symbols.txt; } >"$(BUILD)/noddychest.def"
	$(SHARED); $(CC) "$$@" -shared -o "$@" "$(BUILD)/noddychest.def" -Wl,--out-implib,"$(BUILD)/libnoddychest.dll.a" -Wl,--disable-auto-image-base \
	-Wl,--whole-archive "$(BUILD)/libnoddychest.a" -Wl,--no-whole-archive

# (./pieces and ./recode may start while another run links, so a program is moved into place)
# The name `main` and those of glibc are changed: see generated/names.sed. (on Windows they are so in generated/)
$(IN)/pieces.s: generated/pieces-x86_64$(SYSTEM).s generated/pieces-aarch64.s generated/names.sed $(IN)/target
	read processor <"$(BUILD)/target" && sed -f generated/names.sed generated/pieces-$$processor$(SYSTEM).s >"$@"

$(IN)/recode.s: generated/recode-x86_64$(SYSTEM).s generated/recode-aarch64.s generated/names.sed $(IN)/target
	read processor <"$(BUILD)/target" && sed -f generated/names.sed generated/recode-$$processor$(SYSTEM).s >"$@"

$(IN)/pieces-here.s: $(IN)/pieces.s
	$(TEXT) "$(BUILD)/pieces.s" "$@"

$(IN)/pieces.o: $(IN)/pieces-here.s $(IN)/jumps
	$(ASSEMBLE) "$@" "$(BUILD)/pieces-here.s"

$(IN)/recode-here.s: $(IN)/recode.s
	$(TEXT) "$(BUILD)/recode.s" "$@"

$(IN)/recode.o: $(IN)/recode-here.s $(IN)/jumps
	$(ASSEMBLE) "$@" "$(BUILD)/recode-here.s"

$(IN)/system.o: generated/system.c $(IN)/target
	$(COMPILE) -c -o "$@" generated/system.c

$(IN)/pieces$(EXE): $(IN)/pieces.o $(IN)/system.o
	$(CC) $(CFLAGS) $(LDFLAGS) -o "$@.new" "$(BUILD)/pieces.o" "$(BUILD)/system.o" && mv -f "$@.new" "$@"

$(IN)/recode$(EXE): $(IN)/recode.o $(IN)/system.o
	$(CC) $(CFLAGS) $(LDFLAGS) -o "$@.new" "$(BUILD)/recode.o" "$(BUILD)/system.o" && mv -f "$@.new" "$@"

# What `nody view` needs: an ncurses of wide characters, if a program links with it, and CURSES is not `no`. Otherwise nody is built without that
# command, and says so.
CURSES ?= yes
$(IN)/curses: $(IN)/target
	@: >"$@"; printf '%s\n' '#include <curses.h>' 'int main(void) { cchar_t it = {0}; return set_escdelay(1) + add_wch(&it) + use_default_colors(); }' >"$@.c"; \
	for it in -lncursesw -lcurses; do \
		if [ "$(CURSES)" != no ] && $(COMPILE) -D_XOPEN_SOURCE=700 -D_XOPEN_SOURCE_EXTENDED=1 -D_DARWIN_C_SOURCE -o "$@.o" "$@.c" $$it $(LDFLAGS) 2>/dev/null; then \
			echo -DNODY_CURSES $$it >"$@" && break; \
		fi; \
	done; rm -f "$@.o" "$@.c"; \
	if [ ! -s "$@" ] && [ -z "$(WINDOWS)" ]; then echo "make: nody is built without view: CURSES is no, or ncurses is not there (Debian: libncurses-dev)" >&2; fi

$(IN)/nody$(EXE): $(wildcard c/nody/*) c/noddychest.h $(IN)/libnoddychest.a $(IN)/curses
	$(COMPILE) -std=c99 -Ic -o "$@" $(SOURCES) "$(BUILD)/libnoddychest.a" -pthread `cat "$(BUILD)/curses"` $(WINDOWS) $(LDFLAGS)

check: all
	@COMPILE='$(COMPILE)' LDFLAGS='$(LDFLAGS)' RUN='$(RUN)' LANES='$(LANES)' sh c/tests/all "$(BUILD)"

PYTHON ?= python3

wheel:
	@$(PYTHON) python/wheel "$(BUILD)/wheels"

# (the paths go as they are; c/install says which it does not take)
PATHS = $(foreach it,PREFIX DESTDIR BINDIR LIBDIR INCLUDEDIR DATADIR,$(it)=$(call QUOTED,$($(it))))

install: all
	@$(PATHS) sh c/install install "$(BUILD)"

uninstall:
	@$(PATHS) sh c/install uninstall "$(BUILD)"

dist:
	@packaging/dist "$(BUILD)/dist"

dist-windows:
	@packaging/dist-windows "$(BUILD)/dist"

.PHONY: wheel dist dist-windows

clean:
	rm -rf "$(BUILD)"
