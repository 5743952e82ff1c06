# The commands for this repository, a line each.
.PHONY: check ci fmt style run install bench bench-uploads bench-requests bench-turns

PREFIX ?= /usr/local

check:; rt all check
ci:; rt ci
fmt:; for crate in crates/*/; do (cd $$crate && rt fmt) || exit 1; done
style:; python3 tools/style.py; python3 tools/unused.py
run:; ./run serve 127.0.0.1:4443 4
install:; ./run stdio </dev/null && install -D crates/gcs_server/out/gcs_server $(DESTDIR)$(PREFIX)/bin/gcs_server
bench:; bench/run
bench-uploads:; bench/uploads
bench-requests:; bench/requests
bench-turns:; bench/turns
