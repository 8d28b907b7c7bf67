# What people run. `make test` is the gate.

.PHONY: program run test bench peers soak host target/host/host

# The program, and the two libraries for C and Rust.
OWAC := crates/owac/out/owac
OWAC_C := crates/owac_c
TIMINGS := crates/timings

# How many calls a soak makes.
N ?= 100000

program:
	cd crates/owac && rt run > /dev/null

run:
	cd crates/owac && rt run

test:
	bash .ci/run

bench:
	cd $(OWAC_C) && rt lib
	cd $(TIMINGS) && rt lib
	mkdir -p target/bench
	for work in line listen; do \
	  rustc -O --edition 2024 -o target/bench/$$work bench/$$work.rs -L $(OWAC_C)/out -l static=owac_c || exit 1; \
	done
	for work in sha256 message store; do \
	  rustc -O --edition 2024 -o target/bench/$$work bench/$$work.rs -L $(TIMINGS)/out -l static=timings || exit 1; \
	done
	target/bench/line
	target/bench/sha256
	target/bench/message
	target/bench/store
	target/bench/listen

peers: program
	sh tests/peers.sh $(OWAC)

soak: program
	python3 tests/soak.py $(OWAC) --calls $(N)

host: target/host/host
	target/host/host

target/host/host:
	cd $(OWAC_C) && rt lib
	mkdir -p target/host
	cc -std=c11 -Wall -Wextra -Werror -O2 -g -Iinclude -o target/host/host examples/host.c -L $(OWAC_C)/out -lowac_c
