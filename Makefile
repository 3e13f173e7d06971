# `make run` does the main job, `make test` passes the tests; the others are parts of them or extras.
# Without make's own rules, which it would try on each of hundreds of sources.
MAKEFLAGS += --no-builtin-rules
CC ?= cc
CFLAGS ?= -O2
STRICT = -std=c11 -Wall -Wextra -Werror -Iinclude
# Under sanitizers, with lines for what they find. -Og compiles in a quarter of the time of -O1, and runs as long.
CHECKED = -g1 -Og -fsanitize=address,undefined -fno-sanitize-recover=all
LIB = target/lib/libpeldozkar.a
# The crate that the library is made of: a static library, whose exports are all that C sees.
STATIC = peldozkar
# The library depends on the files of that crate and of all that it rests on, by crates.txt, and on which files and
# crates these are, for which the name of an empty file stands. So nothing else makes it anew.
BELOW := $(shell tools/below --files $(STATIC))
CRATES := target/lib/crates-$(firstword $(BELOW))
SOURCES := $(filter crates/%,$(BELOW))
DESIGN = $(addprefix tools/,design.c card.c correct.c fields.c kinds.c forms.c words.c lists.c turns.c help.c files.c \
	name.c picture.c plot.c response.c)
# Where `make install` puts things, below DESTDIR if that is said, and the header's version.
PREFIX ?= /usr/local
DESTDIR ?=
VERSION = $(shell sed -n 's/^.define PEL_VERSION "\(.*\)"$$/\1/p' include/peldozkar.h)

.PHONY: run functions test lib install uninstall c tool examples compare day bench list distance divisions clean rust scipy cosines card mutants

# What `make run` designs; say another one as in: make run ARGS="spec --cutoff 1000 --transition 200 --attenuation 60 --rate 8000"
ARGS ?= lowpass --cutoff 1000 --rate 8000 --taps 31 --window kaiser --beta 5.65326

run: target/tools/design
	target/tools/design $(ARGS)

# The elementary functions at a few values.
functions: target/tools/functions
	target/tools/functions

test:
	tests/run

lib: $(LIB)

# Proved and made beside the one that is there, which stays until the new one is whole.
$(LIB): $(SOURCES) $(CRATES) tools/library
	@CC='$(CC)' tools/library $@ $(STATIC)

$(CRATES):
	@tools/ready --prove '$(CC)'
	@mkdir -p $(@D) && rm -f $(@D)/crates-* && touch $@

# The library, the header, files for pkg-config and CMake, the command line and its manual page below PREFIX: all of
# them, or none with the reason.
install: $(LIB) target/tools/design
	tools/install '$(LIB)' target/tools/design '$(VERSION)' '$(PREFIX)' '$(DESTDIR)'

# Takes them away again.
uninstall:
	tools/install --remove '$(PREFIX)' '$(DESTDIR)'

# Under another name first: two parts of the tests may make it at once, and run it.
target/tools/design target/tools/functions: target/tools/%: tools/%.c include/peldozkar.h $(LIB)
	@tools/ready '$(CC)'
	mkdir -p target/tools
	$(CC) $(CFLAGS) $(STRICT) $(filter %.c,$^) -o $@.$$$$ $(LIB) -lm && mv -f $@.$$$$ $@

target/tools/design: $(DESIGN) $(addprefix tools/,card.h correct.h fields.h kinds.h forms.h words.h lists.h turns.h \
	help.h files.h name.h picture.h plot.h response.h)

# The exports called from C, with the worked examples, under the address and undefined-behaviour sanitizers.
c: $(LIB)
	mkdir -p target/tests
	for name in elementary designs cosines retune halfband pulses channelizer card sections q15 formats windows; do $(CC) $(STRICT) $(CHECKED) tests/c/$$name.c -o target/tests/$$name $(LIB) -lm && target/tests/$$name || exit 1; done

# The command line of `make run`, and once more with a tap that Q15 can't take.
tool: target/tools/design
	mkdir -p target/tests
	$(CC) $(STRICT) $(CHECKED) -Dpel_gaussian=wide_gaussian $(DESIGN) tests/c/wide.c -o target/tests/wide $(LIB) -lm
	CC="$(CC)" tests/tool target/tools/design target/tests/wide

# The programs of examples/c against an installed tree, and installing itself.
examples: $(LIB)
	tests/examples

# The exports called from Rust, through the crate rust/peldozkar; skipped in one line where cargo isn't installed.
rust: $(LIB)
	tests/rust

# The designs against SciPy and NumPy, each within a stated bound; skipped in one line where SciPy is not installed.
scipy: $(LIB)
	CC="$(CC)" tests/scipy/run $(LIB)

# The cosine windows that a customer loads against a model in exact arithmetic; skipped in one line where python3 is not installed.
cosines: $(LIB)
	CC="$(CC)" tests/cosines/run $(LIB)

# The reader and the writer of cards against a model by the requests' text, over a million hostile cards and half a
# million tickets; skipped in one line where python3 is not installed.
card: $(LIB)
	CC="$(CC)" tests/card/run $(LIB)

# Both sides on the same inputs, by bits, and whether the long run can be taken up again; each skipped in one line where the Rust files are not at hand.
compare: $(LIB)
	tests/differential/run compare
	tests/differential/run resumes

# The long run, 20,000,000 hostile tickets in about two minutes: left at any time, it goes on from its last whole block.
day: $(LIB)
	tests/differential/run day

# Timed in one run: both sides, then the low-pass beside SciPy's.
bench: $(LIB)
	tests/differential/run bench
	CC="$(CC)" tests/scipy/run $(LIB) --speed

# The stored list that the program `replay` holds the port to: answers of the Rust side alone.
list: $(LIB)
	tests/differential/run list >target/list
	cp target/list crates/replay/stdin

# Changes the proved code in one place at a time, a thousand and more, and each change has to be refused by the proofs:
# what is left could be a hole in a contract. Half an hour; left at any time, it goes on from there.
mutants:
	tests/mutants/run

# The elementary functions against the crate libm (Debian: librust-libm-dev).
distance:
	tests/differential/run distance

# How many float divisions a Kaiser low-pass takes: as it is written, and compiled for a machine that emulates floats.
divisions: $(LIB)
	CC="$(CC)" tests/divisions

# What rt keeps of a crate is in the crate's out/.
clean:
	rm -rf target crates/*/out
