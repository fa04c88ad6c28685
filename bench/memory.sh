#!/usr/bin/env bash
# Runs the program of core_tests again and again, each time with one more allocation refused; needs a C compiler:
#   bench/memory.sh
# The program carries a random list of 80 events, and after each it says the sum of all that the core answers. Where an event
# wants memory, all questions have to be answered as before it, and the event that came back has to be carried then. There is
# one run for each allocation. Where the refused one is an event's, the run goes on to the end of the list and makes more
# allocations than one without a refusal; it says what one without a refusal says, and those runs are counted. Any other is the
# program's own, or that of a question: it ends the run there, and what was said by then has to be how the replies begin.
top=$(cd "$(dirname "${BASH_SOURCE[0]}")/.." && pwd)
crate=core_tests
command -v cc >/dev/null || { echo "memory.sh: there is no C compiler here" >&2; exit 0; }
work=$(mktemp -d) || exit 1
trap 'rm -rf "$work"' EXIT
program=$top/crates/$crate/out/$crate
[ -x "$program" ] || (cd "$top/crates/$crate" && rt run >/dev/null) || exit 1
python3 "$top/checks/core_lists.py" --list 6 80 "$work" || exit 1

# Refuses the allocation of the number in FAIL_AT. A program with fewer of them ends with status 77.
cat >"$work/refuse.c" <<'C'
#include <stddef.h>
#include <stdio.h>
#include <stdlib.h>
#include <unistd.h>
extern void *__libc_malloc(size_t size);
extern void *__libc_realloc(void *old, size_t size);
static long left, made;
__attribute__((constructor)) static void begin(void) {
  const char *at = getenv("FAIL_AT");
  left = at ? atol(at) : 0;
}
__attribute__((destructor)) static void end(void) {
  dprintf(3, "%ld\n", made);
  if (left > 0) _exit(77);
}
static int is_refused(void) { made++; return left > 0 && --left == 0; }
void *malloc(size_t size) { return is_refused() ? NULL : __libc_malloc(size); }
void *realloc(void *old, size_t size) { return is_refused() ? NULL : __libc_realloc(old, size); }
C
cc -O2 -shared -fPIC -o "$work/refuse.so" "$work/refuse.c" || exit 1

# run AT: runs the program with that allocation refused, none where it is 0; `made` is how many there were.
run() {
  FAIL_AT=$1 LD_PRELOAD=$work/refuse.so "$program" <"$work/script" >"$work/said" 2>"$work/errors" 3>"$work/made"
  status=$?
  made=$(cat "$work/made")
}

# Whether what was said is how the replies begin.
is_begun() {
  cmp -s -n "$(stat -c %s "$work/said")" "$work/said" "$work/replies"
}

run 0
[ "$status" -eq 0 ] && cmp "$work/said" "$work/replies" || { echo "memory.sh: the list fails without a refusal" >&2; exit 1; }
whole=$made
failed=0
carried=0
for ((at = 1; ; at++)); do
  run "$at"
  [ "$status" -eq 77 ] && break
  if [ "$status" -eq 0 ] && cmp -s "$work/said" "$work/replies"; then
    [ "$made" -le "$whole" ] || carried=$((carried + 1))
  elif [ "$status" -ne 1 ] || ! is_begun; then
    echo "allocation $at refused: status $status" >&2
    tail -n 1 "$work/said" >&2
    failed=$((failed + 1))
  fi
done
echo "$((at - 1)) allocations refused, each in a run of its own: $carried runs carried the whole list, $failed failed"
[ "$failed" -eq 0 ] && [ "$carried" -gt 0 ]
