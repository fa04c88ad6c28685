#!/usr/bin/env bash
# Times `load N 7` in a new silo at widths 1, 8 and 64, and `show`, `history` and `audit` of the silo that the last one leaves:
#   bench/load.sh [N] [PLACE]
# N is 10,000 where it isn't given. The silo stands in a new folder at PLACE, which is /tmp where it isn't given; one on a memory file system
# has syncs that cost nothing.
# Prints the requests a second at each width, the bytes of the log, and how long each report took.
# Wanted: a report over the log of 100,000 takes at most 12 times the time that it takes over that of 10,000.
top=$(cd "$(dirname "${BASH_SOURCE[0]}")/.." && pwd)
[ -n "${SILO:-}" ] || "$top/tools/build" </dev/null || exit 1
exec python3 - "${SILO:-$top/crates/silo/out/silo}" "$@" <<'END'
import json, os, subprocess, sys, tempfile, time

program, count = sys.argv[1], int(sys.argv[2]) if len(sys.argv) > 2 else 10_000
place = sys.argv[3] if len(sys.argv) > 3 else "/tmp"


def timed(folder, *words):
    begun = time.monotonic()
    done = subprocess.run([program, folder, *words], stdin=subprocess.DEVNULL, stdout=subprocess.PIPE, check=True)
    return done.stdout, time.monotonic() - begun


with tempfile.TemporaryDirectory(dir=place) as room:
    for width in ("1", "8", "64"):
        folder = os.path.join(room, width)
        os.mkdir(folder)
        text, took = timed(folder, "load", str(count), "7", "--width", width)
        summary = json.loads(text)
        if summary["requests"] != count + 64 or summary["total"] != 64000:
            sys.exit(f"load.sh: {text!r}")
        print(f"{summary['requests']} requests at width {width} in {took:.2f} s: {summary['requests'] / took:.0f} a second, "
              f"{summary['aborted']} aborted")
    size = os.path.getsize(os.path.join(folder, "manager-0.otx"))
    print(f"the log has {size} bytes")
    for report in ("show", "history", "audit"):
        text, took = timed(folder, report)
        print(f"{report}: {len(text)} bytes in {took:.2f} s")
END
