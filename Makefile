# make help            this list
# make run             the lines of a sample stream: minutes on a new clone, since they are proved first, then 2 seconds
# make test            the gate: proofs, edits that must fail, recorded cases, tests, comparisons, pace (CONTRIBUTING.md: how long)
# make library         target/staticlib/libvolkjarp.a, all calls for C and Rust: minutes on a new clone, since they are proved first, then a second
# make header          the library from C: layouts, every call, the example: 5 seconds beside the library
# make gateway         the tests of the Rust crate: 10 seconds beside the library
# make dist            dist/, what a gateway needs: library, header, the crate's sources, checksums: a second beside the library
# make compare         our libraries against the Rust, on many inputs: 3 minutes beside them
# make compare-full    the room at full size, beside that: 10 minutes
# make picture         docs/swap.svg, a swap of boards drawn by the Rust crate: 10 seconds beside the library
# make angles          docs/angles.svg, the errors of all angles over the circle: 5 seconds, with the Rust's sources
# make census          both lists of the pair census as text: minutes on a new clone, since it is proved first, then a second
# make census-picture  docs/census.svg, the pairs of each amplitude and sector, drawn by the Rust crate: 10 seconds beside the library
# make tables          the four angle tables, a line an entry; TABLE='atan 1024' (or 256, or sine): the entries of one alone. Times as for make census
# make chances         how often chance makes a fall with the default settings; FRAMES=14: of so many frames alone. Times as for make census
# make bench           our time as a ratio to the Rust's: a minute
.DEFAULT_GOAL := help
.PHONY: help run test library header gateway dist compare compare-full oracle bench compare-room compare-room-scale compare-room-memory compare-roomlines picture angles census census-picture tables chances need-rt

# cargo has jobs of its own
unexport MAKEFLAGS MFLAGS

# each crate X_c has calls for C, and a driver oracle/compare/X
subjects := $(filter-out room,$(patsubst crates/%_c,%,$(wildcard crates/*_c)))

# their static libraries; that of room_c is libroom.a
parts := $(patsubst %,target/staticlib/lib%.a,room $(subjects:%=%_c))

# the room's drivers, beside each other in oracle/compare/room
room := cd oracle && cargo run --quiet --offline --release -p compare_room --bin

help:
	@sed -n 's/^# \(make .*\)/\1/p' Makefile

need-rt:
	@command -v rt > /dev/null || { echo 'The Rattle toolchain is missing: no command rt is found.' >&2; exit 1; }

run: need-rt
	@bash tools/run

test: need-rt
	bash .ci/run

# proved and written again where a source is newer
$(parts): need-rt FORCE
	@tools/crates archive $@
FORCE:

target/staticlib/libvolkjarp.a: $(parts)
	@bash tools/library $@ $(parts)

library: target/staticlib/libvolkjarp.a

header: target/staticlib/libvolkjarp.a
	@bash tests/run

gateway: target/staticlib/libvolkjarp.a
	cd gateway && cargo test --quiet --offline

dist: target/staticlib/libvolkjarp.a
	@bash tools/dist
	@bash tests/dist

compare: oracle $(subjects:%=compare-%) compare-room compare-room-memory compare-roomlines

compare-full: compare compare-room-scale

oracle:
	cd oracle && cargo test --quiet --offline --release

$(subjects:%=compare-%): compare-%: target/staticlib/lib%_c.a
	cd oracle && cargo run --quiet --offline --release -p compare_$*

# [seed] [calls]
compare-room: target/staticlib/libroom.a
	$(room) compare_room -- 1 20000

compare-room-memory: target/staticlib/libroom.a
	$(room) compare_room_memory -- 1 1000000

# at least 100,000 calls and 1,000,000 answers; then ten times the memories
compare-room-scale: target/staticlib/libroom.a
	$(room) compare_room -- 2 100000
	$(room) compare_room_memory -- 2 10000000

# the program against the Rust, line by line: at least 500,000 records
compare-roomlines: need-rt
	tools/crates program roomlines
	cd oracle && cargo run --quiet --offline --release --bin compare_roomlines

# its last line is the ratio
bench: target/staticlib/libroom.a
	@$(room) bench_room

# for this picture and the next the crate's build script has the library made
picture:
	@mkdir -p target
	cd gateway && cargo run --quiet --offline --example swap > ../target/swap.svg
	mv target/swap.svg docs/swap.svg

census-picture:
	@mkdir -p target
	cd gateway && cargo run --quiet --offline --example census > ../target/census.svg
	mv target/census.svg docs/census.svg

# proves a program; the prover's words go to target/PROGRAM.log
proved = mkdir -p target; tools/crates program $(1) > target/$(1).log 2>&1 || { tail -n 20 target/$(1).log >&2; exit 1; }

census: need-rt
	@$(call proved,paircensus)
	@crates/paircensus/out/paircensus

tables: need-rt
	@$(call proved,angletables)
	@crates/angletables/out/angletables$(if $(TABLE), | sed -n 's/^$(TABLE) [0-9]* //p' | grep . || { echo 'TABLE is atan or sine with 256 or 1024 behind it' >&2; exit 1; })

chances: need-rt
	@$(call proved,fallchances)
	@crates/fallchances/out/fallchances$(if $(FRAMES), | grep '^frames $(FRAMES) ' || { echo 'FRAMES is a number from 0 to 24' >&2; exit 1; })

# drawn by the oracle, which has the angles rounded down too
angles:
	@mkdir -p target
	cd oracle && cargo run --quiet --offline --release --bin angles > ../target/angles.svg
	mv target/angles.svg docs/angles.svg
