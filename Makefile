# `make` (or `make demo`) builds what a controller links and the host over it, and plays a phrase through each effect;
# `make test` runs every test and the gate of the proofs; `make help` lists all.
LIB = target/staticlib/libroom_effects.a
CFLAGS = -std=c99 -O2 -Wall -Wextra -Wpedantic -Werror

# What the library is made of: the crates that crates.txt gives it, and of these no wrong programs. Folders are in the list too,
# so that a file that is taken away counts.
CRATES := room_effects $(shell sed -n 's/^room_effects staticlib: *//p' crates.txt)
SOURCES := crates.txt kit.txt $(shell find $(wildcard $(foreach crate,$(CRATES),$(addprefix crates/$(crate)/,src specs proofs))))

demo: target/room
	@mkdir -p target/demo
	target/room --demo target/demo

host: target/room

target/room: $(wildcard host/*.c host/*.h) include/room_effects.h $(LIB)
	$(CC) $(CFLAGS) -Iinclude -o $@ host/*.c $(LIB) -lm

# rt proves the crates before it writes the library
$(LIB): $(SOURCES) | kit
	@mkdir -p target
	@test -e $@ || echo "proving the library, which takes some minutes the first time"
	tools/archive room_effects >target/archive.log 2>&1 || { cat target/archive.log; exit 1; }

test: kit
	tests/all

bench: kit
	bench/run

# kit.txt has the kit that the proofs were last checked with. Another may prove the same, but nobody has seen it.
kit:
	@is=$$(rt version 2>/dev/null) || { echo "warning: there is no rt on the PATH"; exit 0; }; \
		test "$$is" = "$$(cat kit.txt)" || \
		echo "warning: this kit is '$$is'; the proofs were last checked with '$$(cat kit.txt)'"

clean:
	rm -rf target crates/*/out

help:
	@echo "make, make demo  build library and host, play a phrase through each effect, check the silence after it"
	@echo "make host        build library and host: $(LIB), target/room"
	@echo "make test        every test, and the gate of the proofs, rt ci"
	@echo "make bench       time ticks and clearings, beside the Rust's"
	@echo "make kit         warn if this is not the kit that the proofs were last checked with"
	@echo "make clean       remove target/ and crates/*/out/, which hold all that is built and proved"

.DELETE_ON_ERROR:
.PHONY: demo host test bench kit clean help
