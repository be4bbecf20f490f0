#!/usr/bin/env python3
"""run.py [MIB]: bytes per second of nvxs_list on captures of 64 KiB and of 64-byte records, beside a plain listing over the Rust parser and
beside `wc -c`. Each is fed by `cat` through a pipe, since of a file `wc -c` only asks the size; nvxs_list and the Rust read the file itself
too. The best of five runs. Run from the repository's root, after tests/listing/build.sh and tests/program nvxs_list."""
import subprocess
import sys
import time

ORACLE = "out/listing/oracle/oracle"
PORT, RUST, WC = ["crates/nvxs_list/out/nvxs_list"], [ORACLE, "list"], ["wc", "-c"]
mib = int(sys.argv[1]) if len(sys.argv) > 1 else 256
RUNS = 5


def seconds(command, path, pipe):
    best = None
    for _ in range(RUNS):
        start = time.perf_counter()
        if pipe:
            source = subprocess.Popen(["cat", path], stdout=subprocess.PIPE)
            subprocess.run(command, stdin=source.stdout, stdout=subprocess.DEVNULL, check=True)
            source.wait()
        else:
            with open(path, "rb") as file:
                subprocess.run(command, stdin=file, stdout=subprocess.DEVNULL, check=True)
        taken = time.perf_counter() - start
        best = taken if best is None else min(best, taken)
    return best


print(f"{'records':<26}{'input':<7}{'nvxs_list':>12}{'Rust':>12}{'wc -c':>12}{'to Rust':>10}{'to wc -c':>10}   (MB/s; ratios of speed)")
for name, payload in (("payload of 65,536 bytes", 65536), ("payload of 64 bytes", 64), ("64 bytes, header and all", 20)):
    path = f"out/listing/{payload}.nvxs"
    with open(path, "wb") as file:
        subprocess.run([ORACLE, "capture", str(payload), str(mib << 20)], stdout=file, check=True)
    size = (mib << 20) / 1e6
    for kind, pipe in (("file", False), ("pipe", True)):
        port, rust = seconds(PORT, path, pipe), seconds(RUST, path, pipe)
        wc = seconds(WC, path, True)
        print(
            f"{name:<26}{kind:<7}{size / port:>12.0f}{size / rust:>12.0f}{size / wc:>12.0f}{rust / port:>10.2f}{wc / port:>10.2f}"
        )
