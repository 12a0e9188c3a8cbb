#!/usr/bin/env bash
# compare_cost.sh BEFORE AFTER [ROUNDS [CALLS]]: runs two builds of bench in turn, each time in one run of its own, and
# prints what a recorded call costs by processor time, over an unrecorded one, before and after: the middle of the rounds.
# Ends with 1 where it is higher after, by more than the rounds differ among themselves.
set -euo pipefail
before="$1" after="$2" rounds="${3:-7}" calls="${4:-20000}"
for ((round = 0; round < rounds; round++)); do
  for which in before after; do "${!which}" "$calls" 1 | sed "s/^/$which /"; done
done | awk '
  function middle(list, count,    at, to, swap) {
    for (at = 2; at <= count; at++)
      for (to = at; to > 1 && list[to] < list[to - 1]; to--) { swap = list[to]; list[to] = list[to - 1]; list[to - 1] = swap }
    low = list[1 + int(count / 4)]; high = list[count - int(count / 4)]
    return list[int((count + 1) / 2)]
  }
  $3 != "unrecorded" { key = $2 " " $3; if (!(key in seen)) { seen[key] = 1; keys[++number] = key }; ratio[$1, key, ++count[$1, key]] = $NF }
  END {
    for (at = 1; at <= number; at++) {
      key = keys[at]
      for (to = 1; to <= count["before", key]; to++) { one[to] = ratio["before", key, to]; other[to] = ratio["after", key, to] }
      was = middle(one, count["before", key]); spread = high - low
      is = middle(other, count["after", key])
      printf "%s: before %.2f, after %.2f, the rounds differ by %.2f\n", key, was, is, spread
      if (is > was + spread + 0.02) worse = 1
    }
    exit worse
  }'
