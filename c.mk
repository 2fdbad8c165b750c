# What is built of C and of Rust for C. LIB is the archive to link; LIB=target/c/libplain.a tries all of it without proofs,
# on plain C. Each archive has a folder of its own for what is linked with it.
LIB ?= target/staticlib/libborder.a
OUT := target/c/$(basename $(notdir $(LIB)))
CC := gcc
STRICT := -std=c99 -Wall -Wextra -pedantic -Werror
CFLAGS := $(STRICT) -O2 -g -Iinclude -Isecond/border
SANITIZED := $(STRICT) -O1 -g -fsanitize=address,undefined -fno-sanitize-recover=all -Iinclude -Isecond/border
SECOND := target/c/libsecond.a
RUST_NEEDS := -lpthread -ldl -lm

# What is built of Rattle. A crate makes its archive or program in its own out/, and from here on the copy in target/ is used.
CRATES := crates.txt $(shell find crates -name out -prune -o '(' -name '*.rt' -o -name '*.antt' ')' -print)

target/staticlib/libborder.a target/staticlib/libpair.a: target/staticlib/lib%.a: $(CRATES)
	tools/prove $*_c
	install -D -m 644 crates/$*_c/out/lib$*_c.a $@

target/bin/planlist: $(CRATES)
	tools/prove planlist
	install -D -m 755 crates/planlist/out/planlist $@

target/c/libplain.a: bench/plain.c bench/plain.h include/tuffbasket.h | target/c
	$(CC) $(CFLAGS) -DSTAND_IN -c $< -o target/c/plain-stand-in.o
	ar rcs $@ target/c/plain-stand-in.o

$(SECOND): $(wildcard second/border/*.rs second/src/*.rs) | target/c
	rustc -O --edition 2021 -D warnings -C panic=abort --crate-type staticlib second/border/lib.rs -o $@

target/c $(OUT):
	mkdir -p $@

$(OUT)/service: service/service.c include/tuffbasket.h $(LIB) | $(OUT)
	$(CC) $(CFLAGS) $< $(LIB) -pthread -o $@

$(OUT)/service-sanitized: service/service.c include/tuffbasket.h $(LIB) | $(OUT)
	clang $(SANITIZED) $< $(LIB) -pthread -o $@

$(OUT)/guard: tests/guard/guard.c include/tuffbasket.h second/border/second.h $(LIB) $(SECOND) | $(OUT)
	$(CC) $(CFLAGS) $< $(LIB) $(SECOND) $(RUST_NEEDS) -o $@

$(OUT)/guard-sanitized: tests/guard/guard.c include/tuffbasket.h second/border/second.h $(LIB) $(SECOND) | $(OUT)
	clang $(SANITIZED) $< $(LIB) $(SECOND) $(RUST_NEEDS) -o $@

$(OUT)/paint: tests/stack/paint.c include/tuffbasket.h $(LIB) | $(OUT)
	$(CC) $(CFLAGS) $< $(LIB) -pthread -Wl,-z,now -o $@

$(OUT)/bench: bench/bench.c bench/plain.c bench/plain.h include/tuffbasket.h second/border/second.h $(LIB) $(SECOND) | $(OUT)
	$(CC) $(CFLAGS) bench/bench.c bench/plain.c $(LIB) $(SECOND) $(RUST_NEEDS) -o $@

# The comparisons on lists and files; the pair's archive is linked here alone, and never ships.
target/c/compare: $(wildcard second/compare/*.rs second/src/*.rs) $(LIB) target/staticlib/libpair.a | target/c
	rustc -O --edition 2021 -D warnings second/compare/main.rs \
	    -L target/staticlib -l static=border -l static=pair -o $@
