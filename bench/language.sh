#!/usr/bin/env bash
# Times the grain language:  bench/language.sh [texts] [steps] [worst] [stack]
# texts: parse and check of texts of 262,144 bytes in shapes of their own, and of half of each. Fails where a text takes more than 2.4 times as
#   long as its half, or its check more than 0.5 s.
# steps: the steps a second of a unit whose method has so many locals, and of calls of the first and of the last of 4,096 methods. Fails where
#   a unit with 10,000 locals has less than half of the steps a second of one with a single local.
# worst: what a unit takes each of whose steps evaluates an expression as long as a text lets it be, from 50 of its evaluations.
# stack: the least stack, of 512 KB and less, with which the deepest programs are read, checked, carried and dropped.
# By default it does all, in about a minute behind the build. The program is built, and so proved, in a copy of the sources, so that it is no crate of this repository. The seconds
# are of the processor's time, and the quickest of forty readings, of five units, or of 25 for steps; memory is kept from one to the next, so that
# the system's pages are not timed.
top=$(cd "$(dirname "${BASH_SOURCE[0]}")/.." && pwd)
work=$(mktemp -d) || exit 1
trap 'rm -rf "$work"' EXIT

fail() {
  echo "language.sh: $*" >&2
  exit 1
}

for what in "$@"; do
  case $what in
    texts | steps | worst | stack) ;;
    *) fail "there is no part $what: it has texts, steps, worst and stack" ;;
  esac
done

needs=$(sed -n 's/^script_machine: //p' "$top/crates.txt")
[ -n "$needs" ] || fail "script_machine isn't listed"
needs="$needs script_lexer script_expressions script_parser script_scopes script_machine"
mkdir -p "$work/crates" "$work/texts"
for crate in $needs; do
  [ -d "$work/crates/$crate" ] && continue
  mkdir "$work/crates/$crate"
  cp -r "$top/crates/$crate"/{src,specs,proofs} "$work/crates/$crate/" 2>/dev/null
  grep "^$crate:" "$top/crates.txt" >>"$work/crates.txt"
done
echo "language_bench: $(cd "$work/crates" && echo *)" >>"$work/crates.txt"
mkdir -p "$work/crates/language_bench/src"

cat >"$work/crates/language_bench/src/main.rt" <<'PROGRAM'
//! Times the readers of the grain language and its machine over texts.
#![tactic(auto)]

use base_types::{Call, GrainId, List, Outcome};
use script_check::{Checked, check};
use script_machine::{Input, Machine, Pause};
use script_parser::parse;
use std::alloc::Global;
use std::io::{self, ErrorKind};
use std::time::CpuClock;
use std::{env, fs};

fn checked_of(alloc: Global, text: &[u8]) -> io::Result<Checked> {
    if text.len() > 262144 {
        return Err(ErrorKind::InvalidData.into());
    }
    let Ok(program) = parse(alloc, text) else {
        return Err(ErrorKind::InvalidInput.into());
    };
    let Ok(checked) = check(alloc, program) else {
        return Err(ErrorKind::InvalidData.into());
    };
    Ok(checked)
}

// Microseconds of a parse and of a check.
fn read_once(rt: &HostRuntime, text: &[u8]) -> io::Result<(u128, u128)> {
    if text.len() > 262144 {
        return Err(ErrorKind::InvalidData.into());
    }
    let begun = rt.thread_cpu_time()?.as_micros();
    let Ok(program) = parse(rt.alloc(), text) else {
        return Err(ErrorKind::InvalidInput.into());
    };
    let between = rt.thread_cpu_time()?.as_micros();
    let Ok(checked) = check(rt.alloc(), program) else {
        return Err(ErrorKind::InvalidData.into());
    };
    let ended = rt.thread_cpu_time()?.as_micros();
    if checked.program().types.len() > 64 {
        return Err(ErrorKind::InvalidData.into());
    }
    Ok((between.wrapping_sub(begun), ended.wrapping_sub(between)))
}

// The quickest of eight.
fn read(rt: &HostRuntime, file: &str) -> io::Result<(u128, u128)> {
    let text = fs::read_to_string(rt, file)?;
    let mut best = (u128::MAX, u128::MAX);
    for _ in 0..8 {
        let (parse, check) = read_once(rt, text.as_bytes())?;
        best.0 = best.0.min(parse);
        best.1 = best.1.min(check);
    }
    Ok(best)
}

// Microseconds of a text's parse and check, and of those of a text of half its length.
fn texts(rt: &HostRuntime, whole: &str, half: &str) -> io::Result<()> {
    let (parse, check) = read(rt, whole)?;
    let (half_parse, half_check) = read(rt, half)?;
    println!(rt; "{parse} {check} {half_parse} {half_check}")
}

// One unit of a method of the first type. Answers whether it ended with a value.
fn unit(alloc: Global, checked: &Checked, method: u16) -> io::Result<bool> {
    let call = Call {
        grain: GrainId { kind: 0, key: 0 },
        method,
        args: List::new(alloc),
    };
    let Ok(mut machine) = Machine::start(alloc, checked, call, 1) else {
        return Err(ErrorKind::OutOfMemory.into());
    };
    match machine.resume(alloc, checked, Input::First) {
        Ok(Pause::Done {
            outcome: Outcome::Value(_),
        }) => Ok(true),
        Ok(Pause::Done {
            outcome: Outcome::Fault(_),
        }) => Ok(false),
        _ => Err(ErrorKind::Other.into()),
    }
}

// Microseconds of a unit of a method, the quickest of so many, and whether it ended with a value.
fn units(rt: &HostRuntime, file: &str, method: u16, count: u32) -> io::Result<()> {
    let text = fs::read_to_string(rt, file)?;
    let checked = checked_of(rt.alloc(), text.as_bytes())?;
    let mut best = u128::MAX;
    let mut is_value = false;
    for _ in 0..count {
        let begun = rt.thread_cpu_time()?.as_micros();
        is_value = unit(rt.alloc(), &checked, method)?;
        let ended = rt.thread_cpu_time()?.as_micros();
        best = best.min(ended.wrapping_sub(begun));
    }
    println!(rt; "{best} {is_value}")
}

fn main(rt: HostRuntime) -> io::Result<()> {
    let mut words = Vec::new(rt.alloc());
    for word in env::args(&rt)?.skip(1) {
        words.push(word)?;
    }
    let (Some(first), Some(second)) = (words.get(0), words.get(1)) else {
        return Err(ErrorKind::InvalidInput.into());
    };
    match second.as_str().parse::<u16>() {
        Ok(method) => units(&rt, first.as_str(), method, 5),
        Err(_) => texts(&rt, first.as_str(), second.as_str()),
    }
}
PROGRAM

# The texts. Each is at most so many bytes long, and is filled up with blanks.
python3 - "$work/texts" <<'END' || exit 1
import sys

letters = "abcdefghijklmnopqrstuvwxyz"
ends = letters + "0123456789_"
reserved = "type field method let set if else while return fail call attempt key".split()

def names(skip=()):
    now = [""]
    while True:
        now = [a + b for a in now for b in (ends if a else letters)]
        yield from (name for name in now if name not in reserved and name not in skip)

def whole(pieces, size, head, tail):
    text, left = [head], size - len(head) - len(tail)
    for piece in pieces:
        if left < len(piece):
            break
        text.append(piece)
        left -= len(piece)
    return "".join(text) + tail

def forever(piece):
    while True:
        yield piece

def body(pieces, size, head="", tail="", params="", kind="plain", fields=""):
    return whole(pieces, size, "type t{" + fields + "method m(" + params + ")create " + kind + "{" + head, tail + "}}")

def small_methods(size):
    text = []
    count = size // 64
    for at in range(count):
        if at % 64 == 0:
            text.append(("}" if at else "") + f"type t{at // 64}{{")
        text.append(f"method m{at % 64}(a,b)create plain{{return a+b;}} ")
    return "".join(text) + "}"

# Sums of 33 each, of so few in the end that one sum has them.
def summed(rows):
    while len(rows) > 1:
        rows = ["+".join(f"({row})" for row in rows[at:at + 33]) for at in range(0, len(rows), 33)]
    return rows[0]

# A sum of sums of 33 names each.
def expression(size, given=("a",)):
    row = lambda at: "+".join(given[(at * 33 + i) % len(given)] for i in range(33))
    length = max(map(len, map(row, range(len(given))))) + 4
    return summed([row(at) for at in range(size // length)])

# A sum of comparisons of joined texts, each joined of 33.
def comparisons(size, given=("a",)):
    row = lambda at: "+".join(given[(at * 33 + i) % len(given)] for i in range(33))
    length = 2 * max(map(len, map(row, range(len(given))))) + 12
    return summed([f"({row(at)})==({row(at + 1)})" for at in range(size // length)])

def wide(size):
    return body([], size, head="return " + expression(size) + ";", params="a")

def locals_of(size):
    return body((f"let {name}=0;" for name in names("tm")), size)

# Half of the text declares locals, and the other half gives the last of them its value.
def locals_used(size):
    head, last = [], ""
    for name in names("tm"):
        head.append(f"let {name}=0;")
        last = name
        if sum(map(len, head[-1:])) * len(head) > size // 2:
            break
    return body(forever(f"{last}={last};"), size, head="".join(head))

# Each local's block ends before the next one begins.
def blocks(size):
    return body((f"if 1{{let {name}=0;{name}={name};}}" for name in names("tm")), size)

def fields_and_parameters(size):
    fields = "".join(f"field f{i}=0;" for i in range(16))
    params = ",".join(f"p{i}" for i in range(8))
    return body(forever("set f15=f15+p7;"), size, params=params, kind="update", fields=fields)

shapes = {
    "small methods": small_methods,
    "a wide expression": wide,
    "deep expressions": lambda size: body(forever("return " + "(" * 29 + "a" + ")" * 29 + ";"), size, params="a"),
    "prefix operators": lambda size: body(forever("return " + "-" * 29 + "a;"), size, params="a"),
    "assignments": lambda size: body(forever("a=a;"), size, params="a"),
    "locals": locals_of,
    "fields and parameters": fields_and_parameters,
    "a comment": lambda size: whole([], size, "#" + "x" * (size - 1), ""),
    "locals that are used": locals_used,
    "blocks with a local": blocks,
}

def put(name, text):
    open(f"{sys.argv[1]}/{name}", "w").write(text)

for number, (shape, made) in enumerate(shapes.items()):
    for size in (262144, 131072):
        text = made(size)
        assert len(text) <= size, (shape, len(text))
        put(f"shape-{number}-{size}", text + " " * (size - len(text)))
put("shapes", "".join(f"{shape}\n" for shape in shapes))

# A method with so many locals that then gives the last one its value till the unit's steps are over.
def first(count):
    return [name for name, _ in zip(names("tm"), range(count))]

for count in (1, 100, 1000, 10000):
    given = first(count)
    text = "".join(f"let {name}=0;" for name in given)
    put(f"steps-{count}", "type t{method m()create plain{" + text + f"while 1{{{given[-1]}={given[-1]}+1;}}" + "}}")

# 64 types of 64 methods, of which the first type has a loop of calls of the first method or of the last.
def method(at, number, called):
    if (at, number) == (0, 9):
        return f"method m9()create plain{{while 1{{call t{called}/0.m{called}();}}}}"
    return f"method m{number}()join plain{{}}"

for called in (0, 63):
    put(f"calls-{called}", "".join(f"type t{at}{{" + "".join(method(at, i, called) for i in range(64)) + "}" for at in range(64)))

# A unit that evaluates an expression 50 times which is as long as a text lets it be.
def worst(made, value, given):
    head = "type t{method m()create plain{let n=0;" + "".join(f"let {name}={value};" for name in given) + "while n<50{n=n+1;if "
    tail = "{}}}}"
    return head + made(262144 - len(head) - len(tail), given) + tail

for kind, made, value in (("numbers", expression, "1"), ("texts", comparisons, '"1234567"')):
    for count, end in ((1, ""), (900, "-of-900-locals")):
        given = [name for name in first(count + 1) if name != "n"][:count]
        put(f"worst-{kind}{end}", worst(made, value, given))

# The deepest that may be open: parentheses that each hold 32 operators, prefix operators with parentheses, blocks; and 32 frames in 15 blocks each
# that wait for a call, whose argument is as deep as the rest allows.
def deep(parentheses):
    text = "a"
    for _ in range(parentheses):
        text = "(" + text + ")" + "+a" * 32
    return text

head = "type t{method m()create plain{let a=1;"
put("deep-expression", head + "return " + deep(30) + ";}}")
put("deep-prefixes", head + "return " + "-(" * 15 + "a" + ")" * 15 + ";}}")
put("deep-blocks", head + "if 1{" * 30 + "return a;" + "}" * 30 + "}}")
put("deep-frames", "type t{method m()create plain{let x=call t/0.f(1);return x;}method f(n)join plain{let a=1;" + "if 1{" * 15
    + "if n<31{let x=call t/0.f(n+1+0*(" + deep(12) + "));return x;}return " + deep(15) + ";" + "}" * 15 + "}}")
END

(cd "$work/crates/language_bench" && rt run -- steps-1 0) >"$work/log" 2>&1
program=$work/crates/language_bench/out/language_bench
[ -x "$program" ] || { tail -n 20 "$work/log" >&2; fail "the program isn't proved"; }
cd "$work/texts" || exit 1
export MALLOC_TRIM_THRESHOLD_=2000000000 MALLOC_MMAP_THRESHOLD_=2000000000
bad=

texts() {
  local number=0 name
  while read -r name; do
    for _ in 1 2 3 4 5; do
      "$program" "shape-$number-262144" "shape-$number-131072" || fail "$name: the program failed"
    done >said
    awk -v name="$name" 'NR == 1 { parse = $1; check = $2; half_parse = $3; half_check = $4 }
      { if ($1 < parse) parse = $1; if ($2 < check) check = $2; if ($3 < half_parse) half_parse = $3; if ($4 < half_check) half_check = $4 }
      END {
        ratio = (parse + check) / (half_parse + half_check)
        printf "%s: parse %.1f ms, check %.1f ms, %.2f times half the text\n", name, parse / 1000, check / 1000, ratio
        exit ratio > 2.4 || check > 500000
      }' said || bad+=" ($name)"
    number=$((number + 1))
  done <shapes
}

# Sets micros to what a unit of this method of a text takes.
unit() {
  read -r micros _ < <("$program" "$1" "$2")
  [ -n "$micros" ] || fail "$1: the program failed"
}

# The texts are timed in turns, so that what else the machine does falls on all of them.
steps() {
  local text count number
  local -A least=()
  for _ in 1 2 3 4 5; do
    for text in steps-1 steps-100 steps-1000 steps-10000 calls-0 calls-63; do
      case $text in
        steps-*) unit "$text" 0 ;;
        *) unit "$text" 9 ;;
      esac
      [ -n "${least[$text]}" ] && [ "${least[$text]}" -le "$micros" ] || least[$text]=$micros
    done
  done
  for count in 1 100 1000 10000; do
    awk -v count="$count" -v micros="${least[steps-$count]}" 'BEGIN { printf "%d locals: %.2f million steps a second\n", count, 10000 / micros }'
  done
  [ "${least[steps-10000]}" -le $((2 * ${least[steps-1]})) ] || bad+=" (10,000 locals)"
  for number in 0 63; do
    awk -v number="$number" -v micros="${least[calls-$number]}" 'BEGIN { printf "method %d of type %d: %.2f million steps a second\n", number, number, 10000 / micros }'
  done
}

worst() {
  local kind
  for kind in numbers texts numbers-of-900-locals texts-of-900-locals; do
    unit "worst-$kind" 0
    awk -v kind="$kind" -v micros="$micros" 'BEGIN { gsub("-", " ", kind); printf "an expression of %s: %.1f ms, a unit of 10,000: %.0f s\n", kind, micros / 50000, micros / 5000 }'
  done
}

stack() {
  local deep size least
  for deep in expression prefixes blocks frames; do
    least=
    for size in 512 448 384 320 256 192 128 96 64 48 32; do
      { (ulimit -s "$size" && exec "$program" "deep-$deep" 0) >/dev/null 2>&1; } 2>/dev/null || break
      least=$size
    done
    echo "deep $deep: ${least:-more than 512} KB"
    [ -n "$least" ] || bad+=" (deep $deep)"
  done
}

[ $# -gt 0 ] || set -- texts steps worst stack
for what in "$@"; do
  "$what"
done
[ -z "$bad" ] || fail "too much:$bad"
