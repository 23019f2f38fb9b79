#!/usr/bin/env python3
"""What `check` takes of files as large as may be: guests/sizes.py PROGRAM [BYTES].

Makes a file of each shape, of at most BYTES (16 MiB), lets PROGRAM check it, and prints a line of a table for each: the shape, the
file's bytes, the seconds, the peak of memory in MiB (of the whole process), the exit status and the line that came."""

import os
import subprocess
import sys
import tempfile
import time

LARGEST = 16 * 1024 * 1024


def number(value):
    """An unsigned LEB128 number."""
    spelled = bytearray()
    while value >= 128:
        spelled.append(value % 128 + 128)
        value //= 128
    spelled.append(value)
    return bytes(spelled)


def vector(items):
    return number(len(items)) + b"".join(items)


def repeated(item, count):
    return number(count) + item * count


def section(ident, body):
    return bytes([ident]) + number(len(body)) + body


PREAMBLE = b"\0asm\x01\0\0\0"
NOTHING = section(1, b"\x01\x60\x00\x00")
ONE_FUNCTION = section(3, b"\x01\x00")
MEMORY = section(5, b"\x01\x00\x01")


def body(locals_, code):
    inside = locals_ + code + b"\x0b"
    return number(len(inside)) + inside


def of_code(code, locals_=b"\x00", types=NOTHING, between=b""):
    """A module of one function."""
    return PREAMBLE + types + ONE_FUNCTION + between + section(10, b"\x01" + body(locals_, code))


def alternating(runs):
    return number(runs) + b"\x01\x7f\x01\x7e" * (runs // 2)


def shapes(room):
    """Each shape with a file of at most so many bytes, less some hundred for what stands around."""
    few = room - 400
    yield "types without parameters", PREAMBLE + section(1, repeated(b"\x60\x00\x00", few // 3))
    wide = b"\x60" + number(1000) + b"\x7f" * 1000 + b"\x00"
    yield "types of 1,000 parameters", PREAMBLE + section(1, repeated(wide, few // len(wide)))
    yield "imports", PREAMBLE + NOTHING + section(2, repeated(b"\x01a\x01b\x00\x00", few // 6))
    count = few // 5
    yield "empty functions", PREAMBLE + NOTHING + section(3, repeated(b"\x00", count)) + section(10, repeated(body(b"\x00", b""), count))
    many = body(b"\x01" + number(10_000) + b"\x7e", b"")
    count = few // (len(many) + 1)
    yield "functions of 10,000 locals in one run", PREAMBLE + NOTHING + section(3, repeated(b"\x00", count)) + section(10, repeated(many, count))
    mixed = body(alternating(10_000), b"")
    count = few // (len(mixed) + 1)
    yield "functions of 10,000 locals in as many runs", PREAMBLE + NOTHING + section(3, repeated(b"\x00", count)) + section(10, repeated(mixed, count))
    yield "uses of the last of 10,000 runs of locals", of_code(b"\x20\x8f\x4e\x1a" * ((few - 20_100) // 4), alternating(10_000))
    runs = number(few // 2)
    yield "runs of no locals", of_code(b"", runs + b"\x00\x7f" * (few // 2))
    tables = section(4, b"\x01\x70\x01\x00\x00") + MEMORY
    yield "globals", PREAMBLE + section(6, repeated(b"\x7f\x00\x41\x00\x0b", few // 5))
    count = few // 9
    names = b"".join(b"\x06" + b"%06x" % k + b"\x02\x00" for k in range(count))
    yield "exports", PREAMBLE + MEMORY + section(7, number(count) + names)
    count = few // 1005
    names = b"".join(number(1000) + b"n" * 994 + b"%06x" % k + b"\x02\x00" for k in range(count))
    yield "exports that begin alike", PREAMBLE + MEMORY + section(7, number(count) + names)
    yield "elements of none", PREAMBLE + tables + section(9, repeated(b"\x00\x41\x00\x0b\x00", few // 5))
    yield "one element of many functions", PREAMBLE + NOTHING + ONE_FUNCTION + section(4, b"\x01\x70\x00\x00") + section(9, b"\x01\x00\x41\x00\x0b" + repeated(b"\x00", few)) + section(10, b"\x01" + body(b"\x00", b""))
    yield "segments of none", PREAMBLE + MEMORY + section(11, repeated(b"\x00\x41\x00\x0b\x00", few // 5))
    yield "one segment", PREAMBLE + MEMORY + section(11, b"\x01\x00\x41\x00\x0b" + repeated(b"x", few))
    yield "nothing done", of_code(b"\x01" * few)
    yield "constants dropped", of_code(b"\x41\x00\x1a" * (few // 3))
    yield "constants that stay until the end", of_code(b"\x41\x00" * (few // 3) + b"\x1a" * (few // 3))
    yield "blocks in blocks", of_code(b"\x02\x40" * (few // 3) + b"\x0b" * (few // 3))
    yield "blocks behind blocks", of_code(b"\x02\x40\x0b" * (few // 3))
    yield "a table of many labels", of_code(b"\x41\x00\x0e" + repeated(b"\x00", few) + b"\x00")
    yield "many tables of one label", of_code(b"\x00" + b"\x0e\x00\x00" * (few // 3))
    types = section(1, b"\x01" + wide)
    yield "calls with 1,000 arguments that nothing reaches", PREAMBLE + types + ONE_FUNCTION + section(10, b"\x01" + body(b"\x00", b"\x00" + b"\x10\x00" * ((few - 1100) // 2)))
    yield "custom sections", PREAMBLE + b"\x00\x01\x00" * (few // 3)
    yield "zeros", b"\x00" * room


def checked(program, path):
    """Seconds, the peak in MiB, the status and the line of a check of this file."""
    begun = time.monotonic()
    child = subprocess.Popen([program, "check", path], stdout=subprocess.PIPE, stderr=subprocess.STDOUT)
    said = child.stdout.read().decode(errors="replace").strip()
    _, status, used = os.wait4(child.pid, 0)
    return time.monotonic() - begun, used.ru_maxrss / 1024, os.waitstatus_to_exitcode(status), said


def main():
    program = sys.argv[1]
    room = int(sys.argv[2]) if len(sys.argv) > 2 else LARGEST
    print("| Shape | Bytes | Seconds | Peak MiB | Status | Line |")
    print("|---|---|---|---|---|---|")
    with tempfile.TemporaryDirectory() as folder:
        for name, file in shapes(room):
            assert len(file) <= room, (name, len(file))
            path = os.path.join(folder, "file.wasm")
            with open(path, "wb") as out:
                out.write(file)
            seconds, peak, status, said = checked(program, path)
            print(f"| {name} | {len(file):,} | {seconds:.1f} | {peak:.0f} | {status} | `{said[-60:]}` |", flush=True)


if __name__ == "__main__":
    main()
