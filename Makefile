# screen: a cleaner of sensor series whose readings may change only so fast.

PREFIX ?= /usr/local
NAME ?= screen

BINARY := build/screen
# The crates of the program stand above the first line of crates.txt that begins with '# Outside'.
CRATES := $(shell sed '/^\# Outside/,$$d; s/:.*//; /^\#/d' crates.txt)
SOURCES := crates.txt scripts/build $(shell find $(CRATES:%=crates/%) -name out -prune -o -type f \( -name '*.rt' -o -name '*.antt' \) -print)
EXAMPLE := examples/cold_room
SPIKE := examples/cold_room_spike
CERT := build/example.cert
HAS_RT := command -v rt > /dev/null || { echo 'The command rt of the Rattle kit is not on the path.'; exit 1; }

.PHONY: all demo test refused check-docs install clean

all: $(BINARY)

# Only what is proved is built.
$(BINARY): $(SOURCES)
	@scripts/build $(BINARY)

# Runs two examples, prints what comes of them, and compares that with what should come: a log that obeys is written as it
# was; of one with a wrong reading the changed lines are shown, and its certificate is checked.
demo: $(BINARY)
	@echo '$$ $(BINARY) global $(EXAMPLE)/rules.toml $(EXAMPLE)/readings.csv $(CERT)'
	@$(BINARY) global $(EXAMPLE)/rules.toml $(EXAMPLE)/readings.csv $(CERT) > $(CERT).csv
	@cat $(CERT).csv
	@cmp $(CERT).csv $(EXAMPLE)/expected.out && cmp $(CERT) $(EXAMPLE)/expected.cert
	@echo '$$ $(BINARY) global $(SPIKE)/rules.toml $(SPIKE)/readings.csv $(CERT) > $(CERT).csv'
	@$(BINARY) global $(SPIKE)/rules.toml $(SPIKE)/readings.csv $(CERT) > $(CERT).csv
	@echo '$$ diff $(SPIKE)/readings.csv $(CERT).csv'
	@diff $(SPIKE)/readings.csv $(CERT).csv; test $$? = 1
	@echo '$$ cat $(CERT)'
	@cat $(CERT)
	@echo '$$ $(BINARY) check $(SPIKE)/rules.toml $(SPIKE)/readings.csv $(CERT)'
	@$(BINARY) check $(SPIKE)/rules.toml $(SPIKE)/readings.csv $(CERT)
	@cmp $(CERT).csv $(SPIKE)/expected.out && cmp $(CERT) $(SPIKE)/expected.cert

# Proves everything, and tries the program and the documents.
test: $(BINARY)
	@$(HAS_RT)
	@rt ci < /dev/null
	@tests/documents
	@tests/program $(BINARY)
	@tests/rule_files $(BINARY)
	@tests/drawn_files $(BINARY)
	@tests/drawn_streams $(BINARY)

# Tries all edits that the prover must refuse. `make test` tries some of them.
refused:
	@tests/refused/try

# What the documents copy from elsewhere is what stands there.
check-docs:
	@tests/documents

install: $(BINARY)
	install -D -m 755 $(BINARY) $(DESTDIR)$(PREFIX)/bin/$(NAME)

clean:
	rm -rf build crates/*/out
