#!/usr/bin/env bash
# Tries the gate's planted bugs, edits/CRATE/*.edit: each has to compile, and the prover has to refuse it in the function that it changes.
#
# usage: tests/edits.sh [--jobs N] [--built]   the gate: tries those whose hash doesn't fit, and three others, drawn anew each time
#        tests/edits.sh --all | CRATE..        tries all, or those of these crates
#        tests/edits.sh --hashes               tries none: says in a second which hashes don't fit, and fails if one doesn't
#        tests/edits.sh --write [CRATE..]      tries those whose hash doesn't fit, and writes the hashes of those that are refused;
#                                              with --all tries all
# --built: `rt ci` has just passed here, so the libraries in out/ are those of the sources. Without it they are taken where rt's own
# stamps say so, and else the crates below are checked as sources, which takes many times as long for an upper crate.
#
# edits/hashes has a hash for each edit, over what its refusal rests on: the edit, sources, specs and proofs of its crate and of
# all crates below, their lines of crates.txt, and the kit. An edit passes if it is tried and refused, or if it isn't tried and its
# hash fits. All edits of a crate in functions that don't call one another are laid into one copy, and cost one check. It needs rt
# and what rt needs, and runs as many checks at once as there are processors, with 4 GB of free memory for each, or N.
# tests/edits_test.sh tests it. docs/ATTACKS.md says what an edit is.
exec python3 "$(dirname "$0")/lib/gate_edits.py" "$@"
