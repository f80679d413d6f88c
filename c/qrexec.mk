# The messages and sessions of qrexec for C programs: a proved library, its header, and calls over a vchan (qrexec.c).
#
#     make -f qrexec.mk             libqrexec.a, by a proof unless the proved library is there
#     make -f qrexec.mk install     PREFIX=/usr/local, DESTDIR=: header, library, qrexec.pc and manual page
#     make -f qrexec.mk dist        packs what a machine without the kit needs to install these, with checksums
#
# A packed copy has the library beside this file.
OUT ?= .
PREFIX ?= /usr/local
DESTDIR ?=
CC ?= cc
CFLAGS ?= -O2 -g

OUT_MADE := $(shell mkdir -p $(OUT))
VERSION := $(shell sed -n 's/^.define QREXEC_VERSION "\(.*\)"/\1/p' qrexec.h)
CRATE = ../crates/qrexec_c
IS_PACKED := $(wildcard libqrexec_c.a)
LIBRARY := $(or $(IS_PACKED),$(CRATE)/out/libqrexec_c.a)

all: $(OUT)/libqrexec.a
	@[ -z "$(IS_PACKED)" ] || sha256sum --quiet -c SHA256SUMS

ifeq ($(IS_PACKED),)
# rt proves only what has changed.
$(LIBRARY): $(shell find $(CRATE)/src $(CRATE)/specs $(CRATE)/proofs ../crates/qrexec_frame/src ../crates/qrexec_frame/specs ../crates/qrexec_data/specs -type f)
	cd $(CRATE) && rt lib && touch out/libqrexec_c.a
endif

$(OUT)/qrexec.o: qrexec.c qrexec.h vchan_page.h vchan_end.h
	$(CC) -std=c11 -Wall -Wextra $(CFLAGS) -fPIC -c -o $@ $<

$(OUT)/libqrexec.a: $(LIBRARY) $(OUT)/qrexec.o
	cp $(LIBRARY) $@.new && chmod u+w $@.new
	$(AR) r $@.new $(OUT)/qrexec.o
	mv $@.new $@

INSTALL = install -D -m 644
TO = "$(DESTDIR)$(PREFIX)"
install: all
	$(INSTALL) qrexec.h $(TO)/include/qrexec.h
	$(INSTALL) qrexec.3 $(TO)/share/man/man3/qrexec.3
	$(INSTALL) $(OUT)/libqrexec.a $(TO)/lib/libqrexec.a
	mkdir -p $(TO)/lib/pkgconfig
	sed 's|@PREFIX@|$(PREFIX)|; s|@VERSION@|$(VERSION)|' qrexec.pc.in >$(TO)/lib/pkgconfig/qrexec.pc

DIST = qrexec-$(VERSION)
dist: all
	rm -rf $(OUT)/$(DIST) && mkdir -p $(OUT)/$(DIST)
	cp qrexec.mk qrexec.h qrexec.c vchan_page.h vchan_end.h qrexec.3 qrexec.pc.in $(LIBRARY) ../LICENSE-MIT ../LICENSE-APACHE $(OUT)/$(DIST)
	cd $(OUT)/$(DIST) && sha256sum * >SHA256SUMS
	tar -C $(OUT) -czf $(OUT)/$(DIST).tar.gz $(DIST) && rm -r $(OUT)/$(DIST)
	@echo $(OUT)/$(DIST).tar.gz

.PHONY: all install dist
