"""The clients and the operator of guests/scene.sh: python3 scene.py PROGRAM DATA.

Four clients keep their connections from the first step to the last. Each has keys of its own and knows what must be
answered; they ask all at once, in threads, also while the operator's order is carried out. Only where a change of the
leading version is under way a set may be answered in the words of either version, and once the change is seen, in those
of the new one alone."""

import json
import os
import socket
import subprocess
import sys
import tempfile
import threading
import time

WAIT = 30.0  # seconds until an answer, a stage or an end counts as missing
CLIENTS = 4
OK, STORED = "+ok", "+stored"


class Wrong(Exception):
    pass


class Wire:
    """A connection that sends lines and reads lines."""

    def __init__(self, address):
        host, port = address.rsplit(":", 1)
        end = time.monotonic() + WAIT
        while True:
            try:
                self.sock = socket.create_connection((host, int(port)), timeout=WAIT)
                break
            except ConnectionRefusedError:
                if time.monotonic() > end:
                    raise Wrong(f"nobody listens at {address}")
                time.sleep(0.02)
        self.sock.setsockopt(socket.IPPROTO_TCP, socket.TCP_NODELAY, 1)
        self.rest = b""

    def send(self, text):
        self.sock.sendall(text.encode())

    def line(self):
        while b"\n" not in self.rest:
            try:
                more = self.sock.recv(4096)
            except socket.timeout:
                raise Wrong(f"no answer after {WAIT:.0f} seconds; behind the last line came {self.rest!r}")
            if not more:
                raise Wrong(f"the connection was ended; behind the last line came {self.rest!r}")
            self.rest += more
        line, self.rest = self.rest.split(b"\n", 1)
        return line.decode()

    def close(self):
        self.sock.close()


class Words:
    """How a set may be answered now, and the count of replies."""

    def __init__(self):
        self.now = {OK}
        self.replies = 0
        self.lock = threading.Lock()

    def counted(self, number):
        with self.lock:
            self.replies += number


class Client:
    """A client with keys of its own, and what they must be."""

    def __init__(self, name, address, words):
        self.name, self.wire, self.words, self.kept, self.round = name, Wire(address), words, {}, 0
        self.got = {}

    def ask(self, lines, wants, pieces=None):
        """Sends lines, in one piece or in the given ones, and compares each reply."""
        before = self.words.now
        for piece in pieces or ["".join(line + "\n" for line in lines)]:
            self.wire.send(piece)
            if pieces:
                time.sleep(0.01)
        for line, want in zip(lines, wants):
            got = self.wire.line()
            right = before | self.words.now if want == "set" else {want}
            if got not in right:
                raise Wrong(f"{self.name} asked {line!r}, wanted {' or '.join(sorted(right))}, got {got!r}")
        self.words.counted(len(lines))

    def set(self, key, value):
        self.ask([f"set {key} {value}"], ["set"])
        self.kept[key] = value

    def get(self, key):
        want = "=" + self.kept[key] if key in self.kept else "-none"
        self.ask([f"get {key}"], [want])

    def some(self, rounds):
        """Ten replies a round: keys set, got, changed, taken away, in pieces and several at once."""
        for _ in range(rounds):
            self.round += 1
            n = self.round
            a, b, c = f"{self.name}a", f"{self.name}b", f"{self.name}c"
            self.get(a)
            self.set(a, f"{n} of {self.name}")
            self.get(a)
            self.set(b, str(n * n))
            lines = [f"get {a}", f"set {c} {n}", f"get {c}", f"del {c}"]
            self.ask(lines, ["=" + self.kept[a], "set", f"={n}", "+gone"])
            self.ask([f"get {b}"], ["=" + self.kept[b]], [f"ge", f"t {b}\n"])
            self.get(c)

    def whole(self):
        for key in sorted(self.kept):
            self.get(key)


class Scene:
    def __init__(self, program, data):
        self.program, self.data = program, data
        self.words, self.steps = Words(), 0
        said = subprocess.run([program, "--help"], stdout=subprocess.PIPE, timeout=WAIT).stdout.decode()
        self.listen, self.console, self.log = "127.0.0.1:7070", "127.0.0.1:7071", None
        options = []
        if "--listen" in said and "--console" in said:
            self.listen, self.console = free_addresses()
            options += ["--listen", self.listen, "--console", self.console]
        if "--log" in said and "audit LOG" in said and "show LOG" in said:
            self.folder = tempfile.TemporaryDirectory()
            self.log = os.path.join(self.folder.name, "log")
            options += ["--log", self.log]
        self.orders = []  # the updates that were accepted, for the audit
        for address in (self.listen, self.console):
            if in_use(address):
                raise Wrong(f"{address} is in use")
        self.server = subprocess.Popen(
            [program, "serve", "kv-1.wasm", *options], cwd=data, stdout=subprocess.PIPE, stdin=subprocess.DEVNULL
        )
        self.clients = [Client(chr(ord("p") + i), self.listen, self.words) for i in range(CLIENTS)]
        self.operator = Wire(self.console)

    def step(self, text):
        self.steps += 1
        print(f"{self.steps} {text}: {self.words.replies} replies so far", flush=True)

    def order(self, line, want=None):
        self.operator.send(line + "\n")
        said = json.loads(self.operator.line())
        if want is not None and said != want:
            raise Wrong(f"the order {line!r} was answered {said}, not {want}")
        if "ok" in said and said["ok"] == "update":
            self.orders += line.split(" ")[1:]
        return said

    def status(self, stage, last="never"):
        """Waits until the stage is there, and compares what is told."""
        end = time.monotonic() + WAIT
        while True:
            told = self.order("status")
            if told["stage"] == stage and (stage != "OldAlone" or told["last"] == last):
                break
            if time.monotonic() > end:
                raise Wrong(f"the stage is {told}, not {stage}")
            time.sleep(0.01)
        if told["last"] != last:
            raise Wrong(f"the stage is {told}, and last should be {last}")

    def all(self, work, meanwhile=None):
        """All clients do the work at once; meanwhile the operator does his."""
        faults = []

        def one(client):
            try:
                work(client)
            except (Wrong, OSError) as fault:
                faults.append(fault)

        threads = [threading.Thread(target=one, args=(client,)) for client in self.clients]
        for thread in threads:
            thread.start()
        if meanwhile:
            try:
                meanwhile()
            except Wrong as fault:
                faults.append(fault)
        for thread in threads:
            thread.join()
        if faults:
            raise faults[0]

    def update(self, number, module, forward, reverse):
        self.order(f"update {module} {forward} {reverse}", {"ok": "update", "update": number})

    def change(self, order, stage, words):
        """An order by which another version leads, in the midst of what the clients ask."""

        def meanwhile():
            time.sleep(0.05)
            self.words.now = {OK, STORED}
            self.order(order, {"ok": order})
            self.status(stage, self.last)

        self.all(lambda client: client.some(5), meanwhile)
        self.words.now = words

    def given_up(self, number, words, last, ask=None):
        """An update that is discarded for this cause."""
        self.update(number, *words)
        if ask:
            # The new version has the state of the next update point, so what is asked before that point it doesn't hear.
            self.status("OldLeads", self.last)
            ask()
        self.status("OldAlone", last)
        self.last = last

    def count(self, client):
        client.ask(["count"], [f":{sum(len(c.kept) for c in self.clients)}"])

    def play(self):
        first = self.clients[0]
        rules = ("kv-fwd.rules", "kv-rev.rules")
        self.last = "never"

        first.set("first", "lost by the wrong one")
        self.all(lambda client: client.some(5))
        first.ask(["jump", "hits first", "set x", "get nobody"], ["-what", "-what", "-what", "-none"])
        first.ask(["set long " + "v" * 24, "k" * 64], ["-long", "-long"])
        first.ask([""], ["-what"])
        self.count(first)
        self.step("version 1 serves")

        self.all(lambda client: client.some(5), lambda: self.update(1, "kv-2.wasm", *rules))
        self.all(lambda client: client.some(5))
        self.status("OldLeads")
        self.step("version 2 follows")

        self.change("promote", "NewLeads", {STORED})
        first.ask(["get first", "hits first", "hits x"], ["=" + first.kept["first"], "#1", "#none"])
        self.all(lambda client: client.some(5))
        self.status("NewLeads")
        self.step("version 2 leads, version 1 follows")

        self.change("back", "OldAlone", {OK})
        self.all(Client.whole)
        self.count(first)
        first.ask(["hits first"], ["-what"])
        self.step("rolled back: version 1 leads alone, with all that version 2 was given")

        self.given_up(2, ("kv-wrong.wasm", *rules), "mismatch", lambda: self.all(Client.whole))
        self.all(lambda client: client.some(5))
        self.step("the wrong version is discarded: mismatch")

        self.given_up(3, ("kv-2.wasm", "none", "none"), "mismatch", lambda: self.all(lambda client: client.some(1)))
        self.step("version 2 without its rules is discarded: mismatch")
        self.given_up(4, ("kv-1.wasm", "none", "none"), "refused")
        self.step("a version without a transformer is discarded: refused")
        self.given_up(5, ("kv-2.wasm", "kv-1.wasm", "none"), "rules")
        self.step("a file that holds no rules is discarded: rules")
        self.update(6, "kv-trap.wasm", *rules)
        self.status("OldLeads", self.last)
        self.change("promote", "NewLeads", {STORED})
        # Nobody sees the trap: the old version answers the line by which it came.
        guest = Client("guest", self.listen, self.words)
        self.words.now = {OK, STORED}
        self.all(lambda client: client.some(5), lambda: guest.ask(["jump"], ["-what"]))
        self.words.now = {OK}
        guest.wire.close()
        self.status("OldAlone", self.last)
        self.all(Client.whole)
        self.step("a version traps while it leads: version 1 leads again, and answers")

        self.update(7, "kv-2.wasm", *rules)
        self.status("OldLeads", self.last)
        self.order("discard", {"ok": "discard"})
        self.status("OldAlone", "order")
        self.last = "order"
        self.step("the operator discards an update: order")
        self.order("update nofile none none", {"no": "missing", "path": "nofile"})
        self.order("promote", {"no": "stage", "now": "OldAlone"})
        self.order("jump", {"no": "unknown", "text": "jump"})
        self.all(lambda client: client.some(5))
        self.step("orders that can't be done are refused")

        self.all(lambda client: client.some(5), lambda: self.update(8, "kv-2.wasm", *rules))
        self.change("promote", "NewLeads", {STORED})
        self.all(lambda client: client.some(5), lambda: self.order("finish", {"ok": "finish"}))
        self.status("NewAlone", self.last)
        self.all(Client.whole)
        self.count(first)
        first.set("wide", "w" * 39)
        first.ask(["hits wide", "get wide", "hits wide"], ["#0", "=" + "w" * 39, "#1"])
        self.step("promoted and finished: version 2 leads alone")

        more = [Client(chr(ord("p") + CLIENTS + i), self.listen, self.words) for i in range(CLIENTS)]
        self.clients += more
        self.all(lambda client: client.some(2))
        for client in more:
            client.ask([f"del {key}" for key in sorted(client.kept)], ["+gone"] * len(client.kept))
            client.kept = {}
            client.wire.close()
        self.clients = self.clients[:CLIENTS]
        self.all(lambda client: client.some(2))
        self.count(first)
        self.step("four clients more come and go")

        self.order("halt", {"ok": "halt"})
        line = self.server.communicate(timeout=WAIT)[0].decode()
        if (line, self.server.returncode) != ("halted\n", 0):
            raise Wrong(f"the server printed {line!r} and has status {self.server.returncode}")
        self.step("halted")
        if self.log:
            self.show()
            self.audit()

    def audit(self):
        """The log is read anew from the first entry on. That is meant to be slow, so it may be given up."""
        words = [self.program, "audit", self.log, "kv-1.wasm", *self.orders]
        try:
            came = subprocess.run(words, cwd=self.data, stdout=subprocess.PIPE, timeout=4 * WAIT)
        except subprocess.TimeoutExpired:
            self.step(f"the audit of the log took more than {4 * WAIT:.0f} seconds, and was given up")
            return
        if (came.stdout, came.returncode) != (b"yes\n", 0):
            raise Wrong(f"the audit printed {came.stdout!r} and has status {came.returncode}")
        self.step("the log is audited: yes")

    def show(self):
        came = subprocess.run([self.program, "show", self.log], stdout=subprocess.PIPE, timeout=4 * WAIT)
        if came.returncode != 0:
            raise Wrong(f"showing the log has status {came.returncode}")
        self.step(f"the log is shown: {came.stdout.count(10)} lines")


def free_addresses():
    found = [socket.socket() for _ in range(2)]
    for sock in found:
        sock.bind(("127.0.0.1", 0))
    addresses = [f"127.0.0.1:{sock.getsockname()[1]}" for sock in found]
    for sock in found:
        sock.close()
    return addresses


def in_use(address):
    host, port = address.rsplit(":", 1)
    with socket.socket() as sock:
        return sock.connect_ex((host, int(port))) == 0


def main():
    program, data = sys.argv[1:]
    scene = None
    try:
        scene = Scene(program, data)
        scene.play()
        print(f"all right: {scene.words.replies} replies, each as it must be")
        return 0
    except (Wrong, OSError, subprocess.TimeoutExpired) as fault:
        print(f"wrong: {fault}")
        return 1
    finally:
        if scene and scene.server.poll() is None:
            scene.server.kill()
            scene.server.wait()


if __name__ == "__main__":
    sys.exit(main())
