"""PostgreSQL 15 for scripts: Debian's packages, servers in folders that go again, and a client of the protocol."""
import collections
import glob
import os
import pwd
import re
import shutil
import signal
import socket
import struct
import subprocess
import time

POSTGRES = "/usr/lib/postgresql/15/bin"
PORT = 5432  # a server that listens at no port has it in the name of its socket
USER = "pool"

# An answer: pairs of name and type, rows of bytes or None, and the tag, or a code alone.
Answer = collections.namedtuple("Answer", "columns rows tag code")


class Skipped(Exception):
    """Something cannot be had."""


def as_user():
    """For subprocess: the user that a server may run as. The superuser may not."""
    if os.geteuid() != 0:
        return {}
    for name in ("postgres", "nobody"):
        try:
            user = pwd.getpwnam(name)
            return {"user": user.pw_uid, "group": user.pw_gid, "extra_groups": []}
        except KeyError:
            pass
    raise Skipped("no user may run the server")


def apt(*words):
    """Whether Debian's apt-get does this, without questions."""
    patient = ["-o", "Acquire::http::Timeout=10", "-o", "Acquire::Retries=0", "-o", "DPkg::Lock::Timeout=60"]
    quiet = {"stdin": subprocess.DEVNULL, "stdout": subprocess.DEVNULL, "stderr": subprocess.DEVNULL, "timeout": 600}
    environment = {**os.environ, "DEBIAN_FRONTEND": "noninteractive"}
    words = ["apt-get", "-qq", "-y", *patient, "--no-install-recommends", *words]
    try:
        return subprocess.run(words, env=environment, check=False, **quiet).returncode == 0
    except (subprocess.SubprocessError, OSError):
        return False


updates = []  # whether the one update of a run went well


def install_packages(*names):
    """Whether Debian's packages are installed now. The lists of packages are updated once in a run."""
    if os.geteuid() != 0 or not shutil.which("apt-get"):
        return False
    if not updates:
        updates.append(apt("update"))
    return apt("install", *names)


def unpack_packages(folder, *names):
    """Whether Debian's packages stand unpacked in a folder. They are not installed."""
    os.makedirs(folder, exist_ok=True)
    quiet = {"stdin": subprocess.DEVNULL, "stdout": subprocess.DEVNULL, "stderr": subprocess.DEVNULL, "timeout": 120}
    try:
        if subprocess.run(["apt-get", "-qq", "download", *names], cwd=folder, check=False, **quiet).returncode:
            return False
        for name in glob.glob(f"{folder}/*.deb"):
            subprocess.run(["dpkg", "-x", name, folder], check=True, **quiet)
        return True
    except (subprocess.SubprocessError, OSError):
        return False


def install():
    """Has PostgreSQL 15 installed by Debian's apt-get, without a cluster of its own."""
    if os.path.exists(f"{POSTGRES}/initdb"):
        return
    if os.geteuid() != 0 or not shutil.which("apt-get"):
        raise Skipped(f"{POSTGRES} is not there, and Debian's postgresql-15 may not be installed")
    settings = "/etc/postgresql-common/createcluster.conf"
    done = install_packages("postgresql-common")
    if done and os.path.exists(settings):
        subprocess.run(["sed", "-i", "s/^#*create_main_cluster.*/create_main_cluster = false/", settings], check=False)
    if not done or not install_packages("postgresql-15") or not os.path.exists(f"{POSTGRES}/initdb"):
        raise Skipped(f"{POSTGRES} is not there, and apt-get could not install postgresql-15")


def free_port():
    """A port that nobody listens at."""
    with socket.socket() as found:
        found.bind(("127.0.0.1", 0))
        return found.getsockname()[1]


class Server:
    """A PostgreSQL server in a folder, reached by a socket there, and by a port where it is given one."""

    def __init__(self, folder, port=None, **settings):
        self.folder, self.port, self.child = folder, port, None
        os.makedirs(folder, exist_ok=True)
        self.log = open(f"{folder}/log", "ab")
        user = as_user()
        self.given = {"cwd": folder, "stdin": subprocess.DEVNULL, "stdout": self.log, "stderr": self.log, **user}
        if user:
            os.chown(folder, user["user"], user["group"])
        listen = {"listen_addresses": "127.0.0.1" if port else "", "port": port or PORT}
        self.settings = {**listen, "unix_socket_directories": folder, "fsync": "off", "timezone": "UTC"}
        self.settings |= {"shared_buffers": "16MB", "max_connections": 10, "autovacuum": "off", "jit": "off", **settings}

    def make(self):
        """Makes the files of the server."""
        words = [f"{POSTGRES}/initdb", "-D", f"{self.folder}/data", "-U", USER, "-A", "trust", "-E", "UTF8", "--locale=C"]
        if subprocess.run([*words, "--no-sync"], check=False, **self.given).returncode:
            raise Skipped(f"initdb failed: {self.last_line()}")

    def start(self):
        """Starts the server. It takes clients a little later."""
        words = [word for name, value in self.settings.items() for word in ("-c", f"{name}={value}")]
        self.child = subprocess.Popen([f"{POSTGRES}/postgres", "-D", f"{self.folder}/data", *words], **self.given)

    def stop(self):
        """Ends the server at once, as a crash does: what its clients were told stands, what they were not told does not."""
        if self.child:
            self.child.send_signal(signal.SIGQUIT)
            self.child.wait()
            self.child = None

    def is_running(self):
        """Whether the server runs."""
        return self.child is not None and self.child.poll() is None

    def connect(self, database="postgres"):
        """A client, as soon as the server takes one."""
        end = time.monotonic() + 30
        while self.is_running() and time.monotonic() < end:
            try:
                return Client(f"{self.folder}/.s.PGSQL.{self.port or PORT}", database)
            except (OSError, EOFError, ConnectionError):
                time.sleep(0.05)
        raise Skipped(f"the server does not start: {self.last_line()}")

    def last_line(self):
        """The last line of the server's log."""
        with open(f"{self.folder}/log", encoding="utf-8", errors="replace") as file:
            return (file.read().strip().splitlines() or ["no reason given"])[-1]

    def __enter__(self):
        self.make()
        self.start()
        return self

    def __exit__(self, *_):
        self.stop()
        self.log.close()


class Client:
    """A session of PostgreSQL's protocol, by Query messages, over a socket's path or a host with its port."""

    def __init__(self, place, database="postgres", user=USER):
        self.socket = socket.socket(socket.AF_UNIX if isinstance(place, str) else socket.AF_INET)
        self.socket.settimeout(60)
        self.socket.connect(place)
        self.input = self.socket.makefile("rb")
        start = f"user\0{user}\0database\0{database}\0client_encoding\0UTF8\0\0".encode()
        self.socket.sendall(struct.pack("!ii", len(start) + 8, 196608) + start)
        code = self.answer().code
        if code:
            raise ConnectionError(code)

    def message(self):
        """The next message: its type and its body."""
        head = self.input.read(5)
        if len(head) < 5:
            raise EOFError
        kind, length = struct.unpack("!ci", head)
        return kind, self.input.read(length - 4)

    def answer(self):
        """What comes up to ReadyForQuery, or to the error behind which the session is closed."""
        columns, rows, tag, code = [], [], "", None
        while True:
            try:
                kind, body = self.message()
            except EOFError:
                if not code:
                    raise
                kind = b"Z"
            if kind == b"T":
                columns = columns_of(body)
            elif kind == b"D":
                rows.append(row_of(body))
            elif kind == b"C":
                tag = body[:-1].decode()
            elif kind == b"I":
                tag = "empty"
            elif kind == b"E":
                code = re.search(rb"(?:^|\0)C(.....)\0", body)[1].decode()
            elif kind == b"Z":
                return Answer([], [], "", code) if code else Answer(columns, rows, tag, None)

    def ask(self, text):
        """The answer to a Query of the text."""
        body = text.encode() + b"\0"
        self.socket.sendall(b"Q" + struct.pack("!i", len(body) + 4) + body)
        return self.answer()

    def close(self):
        """Ends the session, with no word to the server."""
        self.input.close()
        self.socket.close()


def columns_of(body):
    """The columns of a RowDescription."""
    (count,), at, columns = struct.unpack_from("!h", body), 2, []
    for _ in range(count):
        end = body.index(b"\0", at)
        columns.append((body[at:end].decode(), struct.unpack_from("!ihihih", body, end + 1)[2]))
        at = end + 19
    return columns


def row_of(body):
    """The values of a DataRow."""
    (count,), at, row = struct.unpack_from("!h", body), 2, []
    for _ in range(count):
        (length,) = struct.unpack_from("!i", body, at)
        row.append(None if length < 0 else body[at + 4 : at + 4 + length])
        at += 4 + max(length, 0)
    return row
