#!/usr/bin/env bash
# Times open_silo on folders of so many records on 64 grains, a block each:  bench/open.sh [SIZES..]
# This makes a program in a folder of its own beside this checkout's crates, and runs it
# by rt try, which proves nothing: it wants the kit, Python and Linux's /proc, and no crate built before. The program carries rt
# try's checks of each access, so the figures, the memory too, are not those of the proved one. The seconds are of the
# processor's time, the peak is of all the process's memory up to then, and the reads are system calls.
# Behind each opening the versions are read again in two ways, each by a read of its own and each grain's file in one piece.
top=$(cd "$(dirname "${BASH_SOURCE[0]}")/.." && pwd)
sizes=${*:-1000 10000 100000}
folder=$(mktemp -d) || exit 1
trap 'rm -rf "$folder"' EXIT
bench=$folder/crates/open_bench
mkdir -p "$bench/src" || exit 1
(cd "$top" && tar cf - --exclude=out crates) | tar xf - -C "$folder" || exit 1
needs=$(sed -n 's/^silo_opening: //p' "$top/crates.txt")
{ cat "$top/crates.txt"; echo "open_bench: $needs silo_opening system_calls host_files"; } >"$folder/crates.txt"

# Each folder, by docs/FORMATS.md: record r is unit r, a deposit of 5 on account r modulo 64.
PYTHONPATH=$top/checks python3 - "$bench" $sizes <<'END' || exit 1
import os, struct, sys

import harness

text = harness.FIRST_PROGRAM.encode()

def integer(number):
    return b"\0" + struct.pack("<q", number)

for size in map(int, sys.argv[2:]):
    manager = [b"\1OTXLOG02" + bytes(6)]
    grains = [[] for _ in range(64)]
    for unit in range(1, size + 1):
        versions = grains[unit % 64]
        balance = integer(5 * len(versions) + 5)
        call = struct.pack("<HIHH", 0, unit % 64, 0, 1) + integer(5)
        write = struct.pack("<HIQI", 0, unit % 64, 19 * len(versions), 19)
        record = struct.pack("<QBI", unit, 0, unit) + call + struct.pack("<H", 0) + b"\1" + balance + struct.pack("<H", 1) + write
        body = struct.pack("<QI", 1, 1) + record
        manager.append(b"\1" + struct.pack("<I", len(body)) + body)
        versions.append(struct.pack("<QH", unit, 1) + balance)
    place = f"{sys.argv[1]}/{size}"
    os.mkdir(place)
    files = {"program-0.otx": struct.pack("<I", len(text)) + text, "manager-0.otx": b"".join(manager) + b"\0"}
    files.update((f"grain-0-0-{key}.otx", b"".join(versions)) for key, versions in enumerate(grains))
    for name, held in files.items():
        with open(f"{place}/{name}", "wb") as file:
            file.write(held)
END

cat >"$bench/src/main.rt" <<END
#![tactic(auto)]

use base_types::{GrainId, Place, Shape, State, UnitNo, Version};
use field_codec::{Format, get_exactly, get_u64};
use grain_log::read_named;
use host_files::FolderHost;
use host_trait::{FileId, Host, read_full};
use silo_opening::open_silo;
use system_calls::Linux;
use std::alloc::Global;
use std::io::{self, ErrorKind};
use std::fs;
use std::time::CpuClock;

// The number behind a word in a file of /proc/self.
fn figure(rt: &HostRuntime, path: &str, word: &str) -> io::Result<u64> {
    let text = fs::read_to_string(rt, path)?;
    for line in text.lines() {
        let mut words = line.split_whitespace();
        if words.next() == Some(word) {
            return Ok(words.next().and_then(|number| number.parse().ok()).unwrap_or(0));
        }
    }
    Ok(0)
}

fn reads(rt: &HostRuntime) -> io::Result<u64> {
    figure(rt, "/proc/self/io", "syscr:")
}

// How many of so many records are on a grain.
fn count_on(key: u32, records: u64) -> u64 {
    let behind = if key == 0 { 0 } else { 1 };
    (records.wrapping_sub(key as u64) / 64).wrapping_add(behind)
}

fn one_by_one<H: Host>(alloc: Global, host: &mut H, shape: &Shape, records: u64) -> io::Result<u64> {
    let mut seen = 0u64;
    for key in 0..64u32 {
        for at in 0..count_on(key, records) {
            let first = if key == 0 { 64 } else { key as u64 };
            let unit = Some(UnitNo(at.wrapping_mul(64).wrapping_add(first)));
            let place = Place { offset: at.wrapping_mul(19), len: 19 };
            if read_named(alloc, host, FileId::Grain { slot: 0, grain: GrainId { kind: 0, key } }, unit, place, shape, Format::Two).is_err() {
                return Err(ErrorKind::InvalidData.into());
            }
            seen = 1u64.wrapping_add(seen);
        }
    }
    Ok(seen)
}

fn decode(alloc: Global, bytes: &[u8]) -> io::Result<Version> {
    let Ok((unit, after)) = get_u64(bytes, 0) else {
        return Err(ErrorKind::InvalidData.into());
    };
    let Ok((values, _)) = get_exactly(alloc, bytes, after, 64, 1, Format::Two) else {
        return Err(ErrorKind::InvalidData.into());
    };
    Ok(Version { unit: UnitNo(unit), state: State::from_list(values) })
}

fn in_one_piece<H: Host>(alloc: Global, host: &mut H, records: u64) -> io::Result<u64> {
    let mut seen = 0u64;
    for key in 0..64u32 {
        let count = count_on(key, records) as usize;
        let file = FileId::Grain { slot: 0, grain: GrainId { kind: 0, key } };
        host.ready(file)?;
        let mut whole = vec![in alloc; 0u8; count.wrapping_mul(19)]?;
        if !matches!(read_full(host, file, 0, &mut whole), Ok(true)) {
            return Err(ErrorKind::InvalidData.into());
        }
        for at in 0..count {
            let from = at.wrapping_mul(19);
            let version = decode(alloc, whole.get(from..from.wrapping_add(19)).unwrap_or(&[]))?;
            if version.unit.0 > 0 {
                seen = 1u64.wrapping_add(seen);
            }
        }
    }
    Ok(seen)
}

fn opening(rt: &HostRuntime, folder: &str, records: u64) -> io::Result<()> {
    let alloc = rt.alloc();
    let linux = Linux::new(rt, rt.reader(), io::writer(rt));
    let mut host = FolderHost::new(alloc, linux, folder)?;
    let reads_before = reads(rt)?;
    let reads_of_asking = reads(rt)?.wrapping_sub(reads_before);
    let reads_before = reads(rt)?;
    let begun = rt.thread_cpu_time()?;
    let Ok(opened) = open_silo(alloc, &mut host) else {
        return Err(ErrorKind::InvalidData.into());
    };
    let opening = rt.thread_cpu_time()?.as_micros().wrapping_sub(begun.as_micros());
    let read = reads(rt)?.wrapping_sub(reads_before).wrapping_sub(reads_of_asking);
    let peak = figure(rt, "/proc/self/status", "VmHWM:")?;
    let count = opened.count;
    println!(rt; "opened {count} records in {} ms with {read} reads; peak {peak} kB", opening / 1000)?;
    let shape = opened.checked.shape()?;
    let begun = rt.thread_cpu_time()?;
    let seen = one_by_one(alloc, &mut host, &shape, records)?;
    let between = rt.thread_cpu_time()?;
    let again = in_one_piece(alloc, &mut host, records)?;
    let ended = rt.thread_cpu_time()?;
    let one = between.as_micros().wrapping_sub(begun.as_micros());
    let piece = ended.as_micros().wrapping_sub(between.as_micros());
    println!(rt; "  {seen} versions by a read each in {one} us, {again} from one piece a grain in {piece} us")?;
    Ok(())
}

fn main(rt: HostRuntime) -> io::Result<()> {
$(for size in $sizes; do echo "    opening(&rt, \"$size\", $size)?;"; done)
    Ok(())
}
END
cd "$bench" || exit 1
data=()
for file in */*.otx; do
  data+=(--data "$file=$file")
done
rt try --steps 1 --seconds 1800 "${data[@]}" </dev/null
