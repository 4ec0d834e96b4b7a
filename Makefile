# Builds libpkcs1 and pkcs1_tool with a C compiler, from what ffi/lib/generated holds of the proved code.
#
#     make              out/libpkcs1.a, out/libpkcs1.so and, where there is assembly for the machine, out/pkcs1_tool;
#                       for Windows out/libpkcs1.a, out/libpkcs1-1.dll and out/libpkcs1.dll.a; elsewhere, as for
#                       WebAssembly, out/libpkcs1.a alone
#     make amalgamation out/pkcs1_all.c, the library as one file, and out/pkcs1.h
#     make check        tests them; make test does the same
#     make install      below PREFIX; make uninstall removes it
#     make clean
#
# PREFIX, LIBDIR, DESTDIR   where to install: /usr/local, PREFIX/lib, and a folder to install below
# CC, CFLAGS, CPPFLAGS, LDFLAGS   the compiler, its options, those for compiling C and those for linking; check and
#                           install take those of make
# CROSS, RUN                for another machine: CROSS=aarch64-linux-gnu- RUN=qemu-aarch64 make check, and for Windows
#                           CROSS=x86_64-w64-mingw32- RUN=wine
# CODE=c                    the generated C in place of the assembly for this machine
# OUT                       the folder for what is made
# GENERATED                 the folder of the generated files
PREFIX ?= /usr/local
OUT ?= out
GENERATED ?= ffi/lib/generated
# What was built is tested and installed, if nothing else is asked for.
ifeq ($(filter-out check test install,$(or $(MAKECMDGOALS),all)),)
-include $(OUT)/told
endif
CFLAGS ?= -O2
ifeq ($(origin CC),default)
CC := $(CROSS)gcc
ifeq ($(CROSS),)
CC := $(or $(notdir $(shell for it in gcc cc clang; do command -v $$it && break; done)),gcc)
endif
endif
ifneq ($(word 2,$(OUT)),)
$(error OUT can't have a space: name another folder than $(OUT))
endif
version := $(shell sed -n 's/^.define PKCS1_VERSION_[A-Z]* //p' ffi/lib/include/pkcs1.h | paste -s -d .)

# What can't be built stops here, in one line, before anything is made.
ifneq ($(filter-out amalgamation clean uninstall,$(or $(MAKECMDGOALS),all)),)
machine := $(shell ffi/lib/machine.sh $(CC) $(CFLAGS))
ifeq ($(filter x86_64 aarch64 other windows archive,$(machine)),)
$(error $(machine))
endif
# program NAME: the compiler's own tool of this name, which is that of the machine it builds for.
program = $(shell $(CC) -print-prog-name=$(1) 2> /dev/null || echo $(1))
ifeq ($(origin AR),default)
AR := $(call program,ar)
endif
OBJCOPY ?= $(call program,objcopy)
NM ?= $(call program,nm)
READELF ?= $(call program,readelf)
tools := AR $(if $(filter archive,$(machine)),,NM) $(if $(filter windows archive,$(machine)),,OBJCOPY READELF)
missing := $(firstword $(foreach it,$(tools),$(if $(shell command -v $(firstword $($(it))) 2> /dev/null),,$(it))))
ifneq ($(missing),)
$(error there is no $($(missing)): install binutils, or name your own, as in make $(missing)=FILE)
endif
endif
export CC CFLAGS LDFLAGS AR OBJCOPY NM READELF RUN PREFIX LIBDIR DESTDIR

CODE ?= $(if $(filter x86_64 aarch64,$(machine)),assembly,c)
code := $(GENERATED)/$(if $(filter c,$(CODE)),pkcs1_c.c,$(machine)/pkcs1_c.s)
ifneq ($(machine),)
$(if $(and $(filter c assembly,$(CODE)),$(wildcard $(code))),,$(error CODE is c or, on x86_64 and aarch64, assembly))
endif
tool := $(if $(wildcard $(GENERATED)/$(machine)/pkcs1_tool.s),$(OUT)/pkcs1_tool)
# What is left to the link can't be made local; debuggers go back from each call; a program need not keep all of them.
library := $(if $(filter windows archive,$(machine)),,-fPIC) -fno-lto -fasynchronous-unwind-tables \
    -ffunction-sections -fdata-sections
compile = $(CC) -std=c99 $(CPPFLAGS) $(CFLAGS) $(library) -Iffi/lib/include -c $< -o $@
assemble = $(CC) $(CFLAGS) -g0 -Wno-unused-command-line-argument -c $< -o $@

all: fresh $(OUT)/libpkcs1.a $(tool)

# Says in one line if the proved code has other sources than the generated files were made of.
fresh:
	@tools/fresh.sh || true

# All is made again if it would be made in another way, or by another Makefile.
export settings := $(CC) $(CPPFLAGS) $(CFLAGS) $(library) $(LDFLAGS) $(AR) $(OBJCOPY) $(code) $(shell cksum < $(firstword $(MAKEFILE_LIST)))
hash := \#
define told :=
$(foreach it,CC CFLAGS CPPFLAGS LDFLAGS CODE AR OBJCOPY NM READELF,
ifneq ($$(filter default undefined,$$(origin $(it))),)
$(it) := $(subst $(hash),\$(hash),$(subst $$,$$$$,$($(it))))
endif)
endef
export told
$(OUT)/settings: FORCE
	@mkdir -p $(OUT)
	@printf '%s\n' "$$told" | cmp -s - $(OUT)/told || printf '%s\n' "$$told" > $(OUT)/told
	@printf '%s\n' "$$settings" | cmp -s - $@ || printf '%s\n' "$$settings" > $@

headers := ffi/lib/include/pkcs1.h ffi/lib/include/pkcs1_c.h
$(OUT)/proved.o: $(code) $(headers) $(OUT)/settings
	$(if $(filter c,$(CODE)),$(compile),$(assemble))
$(OUT)/tool.o: $(GENERATED)/$(machine)/pkcs1_tool.s $(OUT)/settings
	$(assemble)
$(OUT)/calls.o: ffi/lib/pkcs1.c $(headers) $(OUT)/settings
	$(compile)
$(OUT)/os.o: ffi/lib/os.c $(OUT)/settings
	$(compile)
$(OUT)/libpkcs1.a: $(OUT)/proved.o $(OUT)/calls.o ffi/lib/link.sh
	ffi/lib/link.sh $(OUT)
$(OUT)/pkcs1_tool: $(OUT)/tool.o $(OUT)/os.o
	$(CC) $(CFLAGS) -fno-lto $(LDFLAGS) -Wl,-z,relro,-z,now -o $@ $^

# Made for whatever compiler comes: the compiler that is here isn't asked.
amalgamation:
	@mkdir -p $(OUT)
	ffi/lib/amalgamation.sh $(GENERATED) > $(OUT)/pkcs1_all.c
	cp ffi/lib/include/pkcs1.h $(OUT)

check test: all
	ffi/tests/check.sh $(OUT)

install: all
	ffi/lib/install.sh add "$$PREFIX" $(version) $(OUT) $(tool)
uninstall:
	ffi/lib/install.sh remove "$$PREFIX" $(version)

clean:
	rm -rf $(OUT)
# What is made along with it is made behind it.
ifneq ($(filter clean,$(MAKECMDGOALS)),)
.NOTPARALLEL:
endif

.PHONY: all amalgamation fresh check test install uninstall clean FORCE
.DELETE_ON_ERROR:
