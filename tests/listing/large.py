#!/usr/bin/env python3
"""large.py BYTES MOST: a capture of BYTES bytes through a pipe to nvxs_list. Its output must be the listing over the Rust parser, and its
peak memory at most MOST KiB. Run from the repository's root, after tests/listing/build.sh."""
import hashlib
import subprocess
import sys

ORACLE = "out/listing/oracle/oracle"
size, most = sys.argv[1], int(sys.argv[2])


def high_water(pid):
    """The most memory that a running process has had resident, in KiB; 0 where it is gone."""
    try:
        with open(f"/proc/{pid}/status") as status:
            return int(next((line.split()[1] for line in status if line.startswith("VmHWM")), 0))
    except OSError:
        return 0


def listed(program):
    """The output's digest, its last line, and the program's peak memory in KiB, as last seen before its last block of output."""
    source = subprocess.Popen([ORACLE, "capture", "65536", size], stdout=subprocess.PIPE)
    target = subprocess.Popen(program, stdin=source.stdout, stdout=subprocess.PIPE)
    source.stdout.close()
    digest, last, peak = hashlib.sha256(), b"", 0
    while block := target.stdout.read(1 << 16):
        digest.update(block)
        last = (last + block)[-200:]
        peak = max(peak, high_water(target.pid))
    target.wait()
    source.wait()
    return digest.hexdigest(), last.splitlines()[-1].decode(), peak


port = listed(["crates/nvxs_list/out/nvxs_list"])
rust = listed([ORACLE, "list"])
print(f"nvxs_list: {size} bytes through a pipe, last line '{port[1]}', peak memory {port[2]} KiB")
if port[:2] != rust[:2]:
    sys.exit(f"listing: the Rust listing ends '{rust[1]}', or differs before")
if not 0 < port[2] <= most:
    sys.exit(f"listing: not between 1 and {most} KiB")
