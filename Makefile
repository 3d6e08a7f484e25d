# make test: the one test command. make lib: the static library. make demo: a few addresses cut into words.
# make bench: times beside the Rust's. make soak: jobs compared with the Rust itself for SECONDS, from SEED on.
SHELL := /bin/sh
.SHELLFLAGS := -euc
.PHONY: test lib demo bench soak

C_PROGRAMS := characters segment walk_back
MACHINE := $(shell uname -m)
SECONDS := 60
SEED := 1

# The library is x86-64 code, and the kit has no Rust to link with it on another machine.
ifeq ($(MACHINE),x86_64)
RUST_TESTS := cd harness && cargo test --offline --locked && cd ../bindings/rust && cargo test --offline --locked && \
	RUSTDOCFLAGS='-D warnings' cargo doc --offline --locked --no-deps
RUST_BENCH := cd harness && cargo run --offline --locked --release --bin bench
RUST_SOAK := cd harness && cargo run --offline --locked --release --bin soak -- $(SECONDS) $(SEED)
else
RUST_TESTS := @echo 'harness and bindings/rust: not run, the library is x86-64 code and this machine is $(MACHINE)'
RUST_BENCH := @echo 'bench: cannot be run, the library is x86-64 code and this machine is $(MACHINE)' && false
RUST_SOAK := @echo 'soak: cannot be run, the library is x86-64 code and this machine is $(MACHINE)' && false
endif

# Each line stops the run where it fails. rt ci comes first, on the checkout as it is: it proves every crate, tries the must-fail
# edits, and runs the replay program. Its last line, 'N passed, 0 failed', is said again at the end.
test:
	tools/gate
	$(MAKE) lib
	for name in $(C_PROGRAMS); do harness/c/run harness/c/$$name.c; done
	demo/check
	$(RUST_TESTS)
	@tail -n 1 target/ci

# Only a proved crate is built. C callers know the archive as libjumelavorp.a.
lib:
	cd crates/jumelavorp_c && rt lib
	mkdir -p target/staticlib
	cp crates/jumelavorp_c/out/libjumelavorp_c.a target/staticlib/libjumelavorp.a

demo: lib
	@harness/c/run demo/demo.c

bench: lib
	$(RUST_BENCH)

soak: lib
	$(RUST_SOAK)
