# The archive is for x86-64. On another machine clang compiles for it, and the
# linker, C library and emulator of the Rattle toolchain do the rest. The header
# files of this machine's C library serve there, as both are 64-bit glibc.
MACHINE := $(shell uname -m)
ifeq ($(MACHINE),x86_64)
COMPILE = $(CC)
LINK = $(CC) -o $@ $^
RUN =
else
KIT := $(or $(RATTLE_HOME),$(dir $(realpath $(shell command -v rt)))..)/on/$(MACHINE)
HEADERS := $(patsubst %/bits/types.h,%,$(filter %/bits/types.h,$(shell printf '\043include <stdio.h>' | $(CC) -M -x c -)))
COMPILE = clang --target=x86_64-linux-gnu -isystem $(HEADERS)
LINK = $(KIT)/bin/rattle-link --target x86_64-unknown-linux-gnu --toolchain $(KIT)/toolchain -o $@ $^
RUN = $(KIT)/toolchain/bin/qemu-x86_64 $(KIT)/toolchain/lib/ld-linux-x86-64.so.2 --library-path $(KIT)/toolchain/lib
endif
