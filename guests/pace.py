"""What serving costs: python3 guests/pace.py PROGRAM [SECONDS]. It takes 17 times SECONDS, which are 3 where none are given, and some
15 seconds more.

One client sends a line to a server, waits for the answer, and begins again. Told are how many are answered in a second by
`run`, by `serve`, and by `serve` beside a follower that takes every call; the longest answer around an update, where the
server has written to 1 MiB or to 64 MiB of memory, and the next version copies 64 KiB of it or all; and how much of a
processor a `serve` takes whose client says nothing. Only figures of one run compare."""

import json
import os
import statistics
import subprocess
import sys
import tempfile
import time

from scene import Wire, Wrong, free_addresses

HERE = os.path.dirname(os.path.abspath(__file__))
ECHO = os.path.join(HERE, "..", "crates", "mv_live", "data", "echo.wasm")
ROUNDS = 3
PAGE = 65536

# A server with so many pages, to which it writes before it serves: all but the first, which has what it works with. Its
# next version is the same module, and copies so many bytes.
LARGE = """
type ->
type i32 ->
type i32 -> i32
type i32 i32 i32 -> i32
type i32 i32 i32 i32 -> i32
type -> i32
import "live" "point" 5
import "live" "old_read" 3
import "wasi_snapshot_preview1" "sock_accept" 3
import "wasi_snapshot_preview1" "fd_read" 4
import "wasi_snapshot_preview1" "fd_write" 4
import "wasi_snapshot_preview1" "fd_close" 2
import "wasi_snapshot_preview1" "poll_oneoff" 4
memory {pages}
export "_start" func 10
export "live_resume" func 9
export "live_transform" func 11
data 1032 "\\x00\\x08\\x00\\x00\\x40\\x00\\x00\\x00" ;; 64 bytes at 2048
data 1040 "\\x50\\x04\\x00\\x00\\x03\\x00\\x00\\x00" ;; three bytes at 1104
data 1104 "OK\\n"
data 1160 "\\x01" ;; a subscription at 1152, to a read
;; wait until the descriptor can be read, or a while has passed
func 1
i32.const 1168
local.get 0
i32.store 2 0
i32.const 1152
i32.const 1216
i32.const 1
i32.const 1056
call 6
drop
endfunc
;; answer one read of the connection
func 0 i32
i32.const 1024
i32.load 2 0
i32.const 1032
i32.const 1
i32.const 1048
call 3
local.tee 0
if
i32.const 1024
i32.load 2 0
call 7
return
end
i32.const 1048
i32.load 2 0
if
i32.const 1024
i32.load 2 0
i32.const 1040
i32.const 1
i32.const 1048
call 4
drop
else
i32.const 1024
i32.load 2 0
call 5
drop
i32.const 1024
i32.const 0
i32.store 2 0
end
endfunc
;; serve, and so live_resume
func 0
loop
call 0
drop
i32.const 1024
i32.load 2 0
if
call 8
else
i32.const 3
i32.const 0
i32.const 1024
call 2
if
i32.const 3
call 7
end
end
br 0
end
endfunc
;; _start
func 0 i32
i32.const 65536
local.set 0
loop
{stores}
local.get 0
i32.const 128
i32.add
local.tee 0
i32.const {end}
i32.lt_u
br_if 0
end
call 9
endfunc
;; live_transform
func 5
i32.const 0
i32.const 0
i32.const {copied}
call 1
endfunc
"""


class Server:
    """The program at work on a module, with one client, and an operator where it hears one."""

    def __init__(self, program, command, module):
        self.listen, self.console = free_addresses()
        words = [program, command, module, "--listen", self.listen, "--console", self.console]
        self.process = subprocess.Popen(words, stdout=subprocess.DEVNULL, stdin=subprocess.DEVNULL)
        try:
            self.client = Wire(self.listen)
            self.operator = Wire(self.console) if command == "serve" else None
        except BaseException:
            self.end()
            raise

    def order(self, line):
        self.operator.send(line + "\n")
        return json.loads(self.operator.line())

    def update(self, module):
        """Orders an update to a version that makes equal calls."""
        if "ok" not in self.order(f"update {module} none none"):
            raise Wrong("the update is refused")

    def follows(self):
        if self.order("status")["stage"] != "OldLeads":
            raise Wrong("no follower")

    def asked(self, seconds):
        """How long each answer took, for so many seconds."""
        took, end = [], time.monotonic() + seconds
        while (began := time.monotonic()) < end:
            self.client.send("a\n")
            if self.client.line() != "OK":
                raise Wrong("another answer")
            took.append(time.monotonic() - began)
        return took

    def processor(self):
        """The seconds of processor that it has used."""
        with open(f"/proc/{self.process.pid}/stat") as file:
            fields = file.read().rsplit(")", 1)[1].split()
        return (int(fields[11]) + int(fields[12])) / os.sysconf("SC_CLK_TCK")

    def end(self):
        self.process.kill()
        self.process.wait()

    def __enter__(self):
        return self

    def __exit__(self, *_):
        self.end()


def rates(program, seconds):
    """Answers a second by each way, turn about."""
    for number in range(1, ROUNDS + 1):
        found = []
        for command, follower in (("run", False), ("serve", False), ("serve", True)):
            with Server(program, command, ECHO) as server:
                if follower:
                    server.update(ECHO)
                server.asked(0.2)
                found.append(len(server.asked(seconds)) / seconds)
                if follower:
                    server.follows()
        run, alone, beside = found
        print(
            f"round {number}: run {run:.0f} a second, serve {alone:.0f} ({alone / run:.2f} of run), "
            f"beside a follower {beside:.0f} ({beside / alone:.2f} of serve)",
            flush=True,
        )


def assembled(program, folder, pages, copied):
    text, module = os.path.join(folder, "text"), os.path.join(folder, "module")
    store = "local.get 0\ni64.const 0x0101010101010101\ni64.store 3 {}"
    stores = "\n".join(store.format(place) for place in range(0, 128, 8))
    with open(text, "w") as file:
        file.write(LARGE.format(pages=pages, end=pages * PAGE, copied=copied, stores=stores))
    came = subprocess.run([program, "assemble", text, module], stdout=subprocess.PIPE)
    if came.returncode != 0:
        raise Wrong(came.stdout.decode())
    return module


def pauses(program, folder, pages, copied, seconds):
    """The longest answers before an update and around it."""
    module = assembled(program, folder, pages, copied)
    with Server(program, "serve", module) as server:
        server.asked(0.2)
        before = server.asked(seconds)
        server.update(module)
        after = server.asked(seconds)
        server.follows()
    print(
        f"{pages // 16} MiB, of which {copied // 1024} KiB are copied: half of the answers within "
        f"{1000 * statistics.median(before + after):.2f} ms, "
        f"the longest {1000 * max(before):.1f} ms before an update and {1000 * max(after):.1f} ms around it",
        flush=True,
    )


def idle(program, seconds):
    with Server(program, "serve", ECHO) as server:
        server.asked(0.2)
        began = server.processor()
        time.sleep(seconds)
        used = server.processor() - began
    print(f"while the client says nothing: {used:.2f} seconds of processor in {seconds:.0f}", flush=True)


def main():
    program = os.path.realpath(sys.argv[1])
    seconds = float(sys.argv[2]) if len(sys.argv) > 2 else 3.0
    try:
        rates(program, seconds)
        with tempfile.TemporaryDirectory() as folder:
            for pages in (16, 1024):
                for copied in (PAGE, pages * PAGE):
                    pauses(program, folder, pages, copied, seconds)
        idle(program, 10.0)
        return 0
    except (Wrong, OSError) as fault:
        print(f"wrong: {fault}")
        return 1


if __name__ == "__main__":
    sys.exit(main())
