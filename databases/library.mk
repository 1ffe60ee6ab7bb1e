# The library that an extension is linked with: LIBRARY, by default that of `make -C c`, or else the
# static one that pkg-config finds.
C ?= ../c
LIBRARY ?= $(C)/out/libfluent_uri_c.a
ifneq ($(wildcard $(LIBRARY)),)
URI_CFLAGS = -I$(C)/include
URI_LIBS = $(LIBRARY)
else
URI_LIBDIR := $(shell pkg-config --variable=libdir fluent_uri_c 2> /dev/null)
URI_CFLAGS := $(shell pkg-config --cflags fluent_uri_c 2> /dev/null)
URI_LIBS := $(URI_LIBDIR)/libfluent_uri_c.a
ifeq ($(URI_LIBDIR)$(filter clean,$(MAKECMDGOALS)),)
$(error there is no $(LIBRARY), and no fluent_uri_c for pkg-config: make -C $(C) makes the library)
endif
endif
