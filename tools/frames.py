"""Frames of docs/formats.md, as the scripts beside this file and those of bench/ speak them to `ld node`."""
import json, os, pathlib, select, socket, struct, subprocess, time

NODE, SEQUENCER, READER = 0, 1, 2
STORE, STORED, RELEASE, TRIM, READ_ASK, READ_PAGE, READ_TRIM, READ_WAIT = 1, 2, 10, 11, 12, 13, 15, 16


def number(epoch, place):
    return epoch << 32 | place


def frame(kind, sender, addressee, log, fields):
    """A frame: sender and addressee are pairs of a tag and a number."""
    body = struct.pack(">BBIBII", kind, *sender, *addressee, log) + fields
    return struct.pack(">I", len(body)) + body


def store(epoch, node, log, at, payload, known_good=0):
    """The Store of a record by the sequencer of its epoch, with its last known good place."""
    fields = struct.pack(">QIBH", at, known_good, 0, len(payload)) + payload
    return frame(STORE, (SEQUENCER, epoch), (NODE, node), log, fields)


def release(epoch, node, log, at):
    return frame(RELEASE, (SEQUENCER, epoch), (NODE, node), log, struct.pack(">Q", at))


def trim(epoch, node, log, at):
    return frame(TRIM, (SEQUENCER, epoch), (NODE, node), log, struct.pack(">Q", at))


def read_ask(reader, node, log, number_of_round, at):
    return frame(READ_ASK, (READER, reader), (NODE, node), log, struct.pack(">IQ", number_of_round, at))


class Peer:
    """A connection to a node, which gives the frames of its answers as pairs of a kind and its fields."""

    def __init__(self, port, within=10):
        end = time.monotonic() + within
        while True:
            try:
                self.socket = socket.create_connection(("127.0.0.1", port))
                break
            except OSError:
                if time.monotonic() > end:
                    raise
                time.sleep(0.005)
        self.socket.setsockopt(socket.IPPROTO_TCP, socket.TCP_NODELAY, 1)
        self.held = bytearray()

    def send(self, frames):
        self.socket.sendall(frames)

    def taken(self):
        """The frames that are held whole, taken out."""
        found, at = [], 0
        while len(self.held) - at >= 4:
            length = int.from_bytes(self.held[at : at + 4], "big")
            if len(self.held) - at < 4 + length:
                break
            found.append((self.held[at + 4], bytes(self.held[at + 19 : at + 4 + length])))
            at += 4 + length
        del self.held[:at]
        return found

    def receive(self):
        """Waits for bytes and gives the frames that are whole then; None at the connection's end."""
        piece = self.socket.recv(1 << 18)
        if not piece:
            return None
        self.held += piece
        return self.taken()

    def answers(self, count):
        """Waits for so many answers."""
        found = []
        while len(found) < count:
            more = self.receive()
            if more is None:
                raise EOFError("the node ended the connection")
            found += more
        return found

    def close(self):
        self.socket.close()


def records_of(fields):
    """The records of a ReadPage's fields, by number, and up to where it speaks."""
    _, _, upto, _, count = struct.unpack_from(">IQQBH", fields)
    at, records = 23, {}
    for _ in range(count):
        place, _, tag = struct.unpack_from(">QIB", fields, at)
        at += 13
        if tag == 0:
            (length,) = struct.unpack_from(">H", fields, at)
            records[place] = fields[at + 2 : at + 2 + length]
            at += 2 + length
    return records, upto


def free_port():
    with socket.socket() as s:
        s.bind(("127.0.0.1", 0))
        return s.getsockname()[1]


def free_ports(count):
    """The first of so many ports in a row that nobody has."""
    while True:
        first = free_port()
        if first + count > 65519:
            continue
        taken = []
        try:
            for port in range(first, first + count):
                s = socket.socket()
                taken.append(s)
                s.bind(("127.0.0.1", port))
            return first
        except OSError:
            continue
        finally:
            for s in taken:
                s.close()


class Node:
    """An `ld node` of its own, with its files in a folder; with words beside the usual ones."""

    CONFIG = '{"nodes":[1],"logs":[{"id":1,"set":[1],"r":1}]}'

    def __init__(self, program, folder, turns=1000000000, words=()):
        self.program, self.folder, self.turns, self.words, self.process = program, folder, turns, list(words), None

    def start(self, with_format=False):
        self.port = free_port()
        words = ["--id", "1", "--config", self.CONFIG, "--store", f"{self.folder}/store", "--register", f"{self.folder}/register"]
        words += ["--port", str(self.port), "--turns", str(self.turns)] + ["--format"] * with_format + self.words
        self.process = subprocess.Popen([self.program, "node", *words])
        return Peer(self.port)

    def kill(self):
        self.process.kill()
        self.process.wait()


class Nodes:
    """Several `ld node` of one configuration, which keep log 1 in so many copies, and the commands over them; files are in a folder."""

    def __init__(self, program, folder, count, copies):
        self.program, self.folder, self.processes = program, pathlib.Path(folder), {}
        self.members = list(range(1, count + 1))
        members = ",".join(map(str, self.members))
        self.config = f'{{"nodes":[{members}],"logs":[{{"id":1,"set":[{members}],"r":{copies}}}]}}'
        self.register = self.folder / "register"
        self.base = None

    def store(self, node):
        return self.folder / f"store{node}"

    def words(self, node, port, register=None):
        words = ["node", "--id", str(node), "--config", self.config, "--store", str(self.store(node)), "--register", str(register or self.register)]
        return [self.program, *words, "--port", str(port), "--turns", "1000000000"]

    def start(self, node, with_format=False):
        """Starts a node, whose standard error goes to a file of its own."""
        with open(self.folder / f"said{node}", "wb") as said:
            words = self.words(node, self.base + node) + ["--format"] * with_format
            self.processes[node] = subprocess.Popen(words, stdin=subprocess.DEVNULL, stdout=subprocess.DEVNULL, stderr=said)

    def is_listening(self, node, within=20):
        """Waits until a node listens; False where it has ended, or doesn't in time."""
        end = time.monotonic() + within
        while self.processes[node].poll() is None and time.monotonic() < end:
            try:
                Peer(self.base + node, within=0).close()
                return self.processes[node].poll() is None
            except OSError:
                time.sleep(0.005)
        return False

    def start_all(self, with_format=False, at_once=False):
        """Starts all nodes, at once or one after the other; where somebody else has a port they are tried at other ones."""
        for _ in range(20):
            self.base = free_ports(len(self.members) + 1)
            listening = True
            for node in self.members:
                self.start(node, with_format)
                listening = listening and (at_once or self.is_listening(node))
            if listening and all(self.is_listening(node) for node in self.members):
                return
            ended = [process.poll() for process in self.processes.values()]
            if not any(status == 9 for status in ended):
                break
            self.stop()
        said = "".join((self.folder / f"said{node}").read_text(errors="replace") for node in self.members)
        self.stop()
        raise NotUp(f"the nodes don't listen; they said: {said}")

    def log_words(self, command, rounds, *more, register=None, base=None):
        words = ["--config", self.config, "--log", "1", "--register", str(register or self.register), "--port", str(base or self.base), "--rounds", str(rounds)]
        return [self.program, command, *words, *more]

    def log(self, command, rounds, given, *more, register=None, timeout=120):
        """Runs `append` or `tail`: its status, and the lines of its standard output and standard error; the status is None where it isn't done in time."""
        words = self.log_words(command, rounds, *more, register=register)
        try:
            ran = subprocess.run(words, input=given.encode(), stdout=subprocess.PIPE, stderr=subprocess.PIPE, timeout=timeout)
        except subprocess.TimeoutExpired:
            return None, [], []
        return ran.returncode, ran.stdout.decode().splitlines(), ran.stderr.decode(errors="replace").splitlines()

    def stop(self):
        for process in self.processes.values():
            process.kill()
            process.wait()
        self.processes = {}


class NodesAt(Nodes):
    """Nodes that listen at addresses of their own, whose ports the system chooses, and commands that have a table of them."""

    def __init__(self, program, folder, hosts, copies):
        super().__init__(program, folder, len(hosts), copies)
        self.hosts, self.addresses, self.said = hosts, {}, {}

    def start_at(self, node, with_format=False, within=20):
        """Starts a node, keeps the lines that it writes where standard error is a terminal, and finds its address by the last one."""
        words = self.words(node, 0)
        at = words.index("--port")
        words[at:at + 2] = ["--listen", f"{self.hosts[node]}:0"]
        ours, theirs = os.openpty()
        self.processes[node] = subprocess.Popen(words + ["--format"] * with_format, stdin=subprocess.DEVNULL, stdout=subprocess.DEVNULL, stderr=theirs)
        os.close(theirs)
        said, end = b"", time.monotonic() + within
        while not (said.endswith(b"\n") and b"ld: listening on " in said) and select.select([ours], [], [], max(0, end - time.monotonic()))[0]:
            try:
                said += os.read(ours, 1024)
            except OSError:
                break
        os.close(ours)
        self.said[node] = lines = said.decode(errors="replace").splitlines()
        line = lines[-1] if lines else ""
        if not line.startswith("ld: listening on ") or line.startswith("ld: listening on port"):
            raise NotUp(f"node {node} said {lines!r}")
        self.addresses[node] = f"{self.hosts[node]}:{line.rsplit(':', 1)[1]}"
        return line.removeprefix("ld: listening on ")

    def log_words(self, command, rounds, *more, register=None, base=None):
        words = super().log_words(command, rounds, *more, register=register, base=1)
        at = words.index("--port")
        words[at:at + 2] = ["--at", json.dumps(self.addresses)]
        return words


class NotUp(Exception):
    """Nodes that were started don't listen."""
