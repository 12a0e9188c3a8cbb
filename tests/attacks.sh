#!/usr/bin/env bash
# Tries the planted bugs of attacks/CRATE/*.edit that are due, as tests/edits.sh tries those of the gate: all edits of a crate in
# functions that don't call one another cost one check.
# usage: tests/attacks.sh [CRATE..]          (without a name: every crate that has attacks)
#        tests/attacks.sh --due              tries none: prints for each crate how many it has, and how many of them are due
#        tests/attacks.sh --apply            tries none: says in seconds of each edit, of the gate's too, that it still applies
#                                         (what it looks for stands just once). .ci/run begins with this.
#        --all                               tries those too that aren't due
#        --built                             `rt ci` has just passed here: the libraries in out/ are taken, as by tests/edits.sh --built
#        --jobs N                            so many checks at once (else as many as there are processors, if each can have 4 GB)
# attacks/hashes has a hash for each edit that was refused, over what its refusal rests on: the edit, sources, specs and proofs of
# its crate and of all crates below, their lines of crates.txt, and the logic of the kit. Comments and layout don't count, nor does
# where a file or a name stands. An edit is due if its hash doesn't fit.
# Each bug that isn't refused in the function that it changes, and each that no longer applies, is printed; the last line
# counts. They are no part of the gate.
exec python3 "$(dirname "$0")/lib/attacks.py" "$@"
