#!/usr/bin/env bash
# Builds what others link and run, from proved code alone: target/staticlib/libsofretu.a and target/bin/report.
set -euo pipefail
cd "$(dirname "$0")/.."

(cd crates/sofretu && rt lib)
install -D -m 644 crates/sofretu/out/libsofretu.a target/staticlib/libsofretu.a

# `rt run` builds the program and then runs it, here with no sheet and no question: its notices are of no interest, but what went wrong is.
said=$(mktemp)
trap 'rm -f "$said"' EXIT
(cd crates/report && rt run </dev/null) 2>"$said" || { cat "$said" >&2 && exit 1; }
install -D crates/report/out/report target/bin/report
