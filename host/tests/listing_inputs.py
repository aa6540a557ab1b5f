"""Inputs for the test of the listing program, and the ways in which its input and output come and go.

sheet                   the fullest sheet: 65,536 bytes
names                   300 spelled names of that sheet, one a line
mix BYTES..             from the files names and lines (the line of each name) a list of at most BYTES and its expected
                        listing, in the files list.BYTES and expected.BYTES
bytes FILE              the file byte by byte
pauses FILE             the file in five pieces with pauses between them
limit BYTES COMMAND..   the command, with files of at most BYTES; beyond them a write fails
halt COMMAND..          the command, halted and let go on while it waits for a reader, so that writes are short
"""

import fcntl
import os
import random
import resource
import signal
import struct
import subprocess
import sys
import time

RECORDS, MARK, VERSION = 2978, b"EAS", 1


def name(i):
    """four bytes, now and then one spelled by a percent form; the last name has 13 more, which fill the sheet"""
    return (b"/%03d" % (i // 10) if i % 10 == 7 else b"%04d" % i) + b"+" * 13 * (i == RECORDS - 1)


def record(i):
    """temperatures, entropies and pressures of states of many densities, a few of them refused"""
    at, kind = random.Random(i), 1 + i % 3
    density = round(10 ** at.uniform(5, 14))
    first = round(10 ** at.uniform(8, 16)) if kind == 1 else round(10 ** at.uniform(8, 11.5))
    return bytes([len(name(i))]) + name(i) + bytes([kind]) + struct.pack(">QQ", first, density)


def sheet():
    return MARK + struct.pack(">HH", VERSION, RECORDS) + b"".join(record(i) for i in range(RECORDS))


def names():
    return [i.replace(b"/", b"%2f").replace(b"+", b"%2B") for i in map(name, range(RECORDS - 300, RECORDS))]


def mix(most, lines):
    chosen, size = [], 0
    for spelled in random.Random(most).choices(list(lines), k=20000):
        size += len(spelled)
        if size > most:
            break
        chosen.append(spelled)
    open(f"list.{most}", "wb").write(b"".join(chosen))
    open(f"expected.{most}", "wb").write(b"".join(lines[spelled] for spelled in chosen))


def feed(file, size, pause):
    """the reader may stop before the end"""
    data = open(file, "rb").read()
    try:
        for at in range(0, len(data), size):
            os.write(1, data[at : at + size])
            if pause:
                time.sleep(pause)
    except BrokenPipeError:
        pass


def limit(most, command):
    def before():
        resource.setrlimit(resource.RLIMIT_FSIZE, (int(most), int(most)))
        signal.signal(signal.SIGXFSZ, signal.SIG_IGN)

    subprocess.run(command, preexec_fn=before, restore_signals=False, check=True)


def halt(command):
    """ten times, each with a full pipe of 4,096 bytes"""
    ours, theirs = os.pipe()
    fcntl.fcntl(theirs, fcntl.F_SETPIPE_SZ, 4096)
    process = subprocess.Popen(command, stdout=theirs)
    os.close(theirs)
    for _ in range(10):
        time.sleep(0.05)
        os.kill(process.pid, signal.SIGSTOP)
        os.kill(process.pid, signal.SIGCONT)
        sys.stdout.buffer.write(os.read(ours, 4096))
    sys.stdout.buffer.write(open(ours, "rb").read())
    process.wait()


def main(what, *rest):
    if what in ("sheet", "names"):
        sys.stdout.buffer.write(sheet() if what == "sheet" else b"".join(n + b"\n" for n in names()))
    elif what == "mix":
        lines = dict(zip(open("names", "rb"), open("lines", "rb"), strict=True))
        for most in rest:
            mix(int(most), lines)
    elif what == "bytes":
        feed(rest[0], 1, 0)
    elif what == "pauses":
        feed(rest[0], 1 + os.path.getsize(rest[0]) // 5, 0.05)
    elif what == "limit":
        limit(rest[0], rest[1:])
    elif what == "halt":
        halt(rest)
    else:
        sys.exit(__doc__)


main(*sys.argv[1:])
