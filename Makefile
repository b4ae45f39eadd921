# The library for C and C++, on x86-64 Linux alone; GNU make.
#   make                             builds the archive where it is missing or older than the crates
#   make install PREFIX=/usr/local   headers, archive, pkg-config file and CMake package; also with DESTDIR
#   make uninstall PREFIX=/usr/local removes just those files
PREFIX ?= /usr/local
to = $(DESTDIR)$(PREFIX)
archive = target/staticlib/libexports.a
cmake = lib/cmake/Birnenschloss
filled = $(patsubst packaging/%.in,target/packaging/%,$(wildcard packaging/*.in))
version := $(shell sed -n 's/^version = "\(.*\)"$$/\1/p' bindings/rust/Cargo.toml)

ifneq ($(shell uname -sm),Linux x86_64)
$(error the library is for x86-64 Linux alone, and this is $(shell uname -sm))
endif
ifneq ($(words $(version)),1)
$(error bindings/rust/Cargo.toml should have one line version = "..")
endif

.PHONY: all install uninstall
.DELETE_ON_ERROR:
all: $(archive)

# crates/NAME/out is what rt makes
$(archive): $(shell find crates -regex 'crates/[^/]*/out' -prune -o -type f -print) crates.txt
	@echo "rt proves the crates that the archive holds: some minutes"
	tools/build exports

target/packaging/%: packaging/%.in bindings/rust/Cargo.toml
	@mkdir -p $(@D)
	sed 's/@VERSION@/$(version)/' $< > $@

# `make -o target/staticlib/libexports.a install` takes the archive as it is.
install: $(archive) $(filled)
	@[ -f $(archive) ] || { echo "install: $(archive) is missing" >&2; exit 1; }
	install -d "$(to)/include" "$(to)/lib/pkgconfig" "$(to)/$(cmake)"
	install -m 644 include/*.h "$(to)/include"
	install -m 644 $(archive) "$(to)/lib/libbirnenschloss.a"
	install -m 644 $(filter %.pc,$(filled)) "$(to)/lib/pkgconfig"
	install -m 644 $(filter %.cmake,$(filled)) "$(to)/$(cmake)"

# A file that is not there is named, and is an error.
uninstall:
	cd "$(to)" && rm --interactive=never $(wildcard include/*.h) lib/libbirnenschloss.a lib/pkgconfig/birnenschloss.pc \
	    $(cmake)/BirnenschlossConfig.cmake $(cmake)/BirnenschlossConfigVersion.cmake
	rmdir --ignore-fail-on-non-empty "$(to)/$(cmake)"
