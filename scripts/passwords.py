"""Passwords through the pool: clients that show theirs, hostile logins, and servers that ask the pool for one."""
import base64
import hashlib
import hmac
import os
import re
import socket
import struct
import subprocess
import tempfile
import threading
import time

from postgres import POSTGRES
from serving import DATABASE, TOP, NotServed

USER, OPEN, KEPT = "alice", "open sesame", "pencil"  # of the pool's client; its password at the pool, and at the servers
SALT_AT = re.compile(rb"^r=([^,]+),s=([^,]+),i=(\d+)$")
WAY = b"SCRAM-SHA-256\0"
ASKED = bytes.fromhex("52000000170000000a534352414d2d5348412d3235360000")
READ = "SELECT v FROM accounts WHERE id = 1"
LOGINS = 50  # so many are made to see what one takes
MOST = 20  # milliseconds


def verifier(password, rounds=4096):
    """The verifier that the pool's own tool makes."""
    words = [f"{TOP}/scripts/verifier", str(rounds)]
    return subprocess.run(words, input=password + "\n", stdout=subprocess.PIPE, encoding="utf-8", check=True).stdout.strip()


def settings(**more):
    """The lines of a configuration with one user."""
    lines = [f"scram_user0 = '{USER}'", f"scram_verifier0 = '{verifier(OPEN)}'"]
    return lines + [f"{name} = '{value}'" for name, value in more.items()]


def pool_of(servers, words, **more):
    """A pool with one user, in a folder of its own."""
    return servers.pool(words, folder=tempfile.mkdtemp(dir=servers.folder), more=settings(**more))


def let_in_by(servers, way, password=KEPT, kept="scram-sha-256"):
    """The servers let their own user in as before, and others by this way; the pool's client has this password there."""
    for server in servers.all:
        for text in (f"SET password_encryption = '{kept}'; DROP ROLE IF EXISTS {USER}", f"CREATE ROLE {USER} LOGIN SUPERUSER"):
            servers.at(server, text)
        servers.at(server, f"SET password_encryption = '{kept}'; ALTER ROLE {USER} PASSWORD '{password}'")
        with open(f"{server.folder}/data/pg_hba.conf", "w", encoding="utf-8") as file:
            file.write(f"local all all trust\nhost all pool all trust\nhost all all all {way}\n")
        servers.at(server, "SELECT pg_reload_conf()")
    time.sleep(0.5)


# One login, message by message


class Login:
    """A login at the pool. What is sent may be bent on its way by a function of the message's number and its bytes."""

    def __init__(self, pool, user=USER, bend=lambda number, message: [message], nonce=None):
        self.socket = socket.create_connection(("127.0.0.1", pool.port), 10)
        self.socket.settimeout(10)
        self.input = self.socket.makefile("rb")
        self.bend, self.number = bend, 0
        self.nonce = nonce or base64.b64encode(os.urandom(18))
        self.bare = b"n=,r=" + self.nonce
        start = f"user\0{user}\0database\0{DATABASE}\0\0".encode()
        self.put(struct.pack("!ii", len(start) + 8, 196608) + start)

    def put(self, message):
        """Sends a message, as it is bent."""
        for piece in self.bend(self.number, message):
            self.socket.sendall(piece)
        self.number += 1

    def say(self, body):
        """Sends a message p."""
        self.put(b"p" + struct.pack("!i", len(body) + 4) + body)

    def hear(self):
        """The next message's type and body, or None at the end."""
        try:
            head = self.input.read(5)
            if len(head) < 5:
                return None
            kind, length = struct.unpack("!ci", head)
            return kind, self.input.read(length - 4)
        except ConnectionResetError:
            return None

    def open(self):
        """The first message, and what it is answered."""
        asked = self.hear()
        if asked is None or asked[0] != b"R":
            return asked
        assert asked[0] + struct.pack("!i", len(asked[1]) + 4) + asked[1] == ASKED, f"the pool asks by {asked}"
        first = b"n,," + self.bare
        self.say(WAY + struct.pack("!i", len(first)) + first)
        return self.hear()

    def last(self, challenge, password):
        """The last message to a challenge, with the proof of this password."""
        whole, salt, rounds = SALT_AT.match(challenge).groups()
        salted = hashlib.pbkdf2_hmac("sha256", password.encode(), base64.b64decode(salt), int(rounds))
        key = hmac.digest(salted, b"Client Key", "sha256")
        unproved = b"c=biws,r=" + whole
        self.auth = b",".join((self.bare, challenge, unproved))
        signature = hmac.digest(hashlib.sha256(key).digest(), self.auth, "sha256")
        self.expected = b"v=" + base64.b64encode(hmac.digest(hmac.digest(salted, b"Server Key", "sha256"), self.auth, "sha256"))
        return unproved + b",p=" + base64.b64encode(bytes(a ^ b for a, b in zip(key, signature)))

    def run(self, password):
        """The code that the login ends with, or None where it is let in."""
        told = self.open()
        if told and told[0] == b"R":
            self.challenge = told[1][4:]
            self.say(self.last(self.challenge, password))
            told = self.hear()
        if told and told[0] == b"R":
            assert told[1] == struct.pack("!i", 12) + self.expected, f"the pool shows {told[1]}, not {self.expected}"
            told = self.hear()
            if told is None or told[0] != b"E":
                assert told == (b"R", bytes(4)), f"behind the proof comes {told}"
                return None
        if told is None:
            return "closed"
        return re.search(rb"\0C(.....)\0", b"\0" + told[1])[1].decode() if told[0] == b"E" else f"{told[0]}"

    def close(self):
        """Ends the login."""
        self.input.close()
        self.socket.close()


def ends(pool, password=OPEN, **given):
    """How a login ends."""
    login = Login(pool, **given)
    try:
        return login.run(password)
    finally:
        login.close()


def cut_at(message_number, place):
    """Sends a message in two pieces."""

    def bend(number, message):
        if number != message_number or not 0 < place < len(message):
            return [message]
        return [message[:place], message[place:]]

    return bend


def changed(message_number, change):
    """Sends another message in place of one."""
    return lambda number, message: [change(message) if number == message_number else message]


def framed(body):
    """A message p."""
    return b"p" + struct.pack("!i", len(body) + 4) + body


def with_body(change):
    """A message p with its body changed."""
    return lambda message: framed(change(message[5:]))


def first_of(text):
    """A client's first message of this text."""
    return framed(WAY + struct.pack("!i", len(text)) + text)


def digit(at, either, other):
    """Another base64 digit in the proof: one of these two."""

    def change(body):
        place = body.index(b",p=") + 3 + at
        return body[:place] + (either if body[place : place + 1] != either else other) + body[place + 1 :]

    return change


HOSTILE = {
    "another nonce": (changed(2, with_body(lambda body: body.replace(b",r=", b",r=x", 1))), "08P01"),
    "another header": (changed(2, with_body(lambda body: body.replace(b"biws", b"eSws", 1))), "08P01"),
    "a binding": (changed(1, lambda _: first_of(b"p=tls-unique,,n=,r=abc")), "08P01"),
    "an empty nonce": (changed(1, lambda _: first_of(b"n,,n=,r=")), "08P01"),
    "another way": (changed(1, with_body(lambda body: body.replace(b"SHA-256", b"SHA-1", 1))), "08P01"),
    "a wrong length": (changed(1, with_body(lambda body: body[:14] + struct.pack("!i", 1) + body[18:])), "08P01"),
    "a length of -1": (changed(1, with_body(lambda body: body[:14] + b"\xff" * 4 + body[18:])), "08P01"),
    "a changed proof": (changed(2, with_body(digit(0, b"A", b"B"))), "28P01"),
    "a proof in another form": (changed(2, with_body(digit(42, b"B", b"C"))), "08P01"),  # the last two bits of the digit say nothing
    "a short proof": (changed(2, with_body(lambda body: body[:-4])), "08P01"),
    "no proof": (changed(2, with_body(lambda body: body[: body.index(b",p=")])), "08P01"),
    "a Query": (changed(1, lambda _: b"Q\0\0\0\x0dSELECT 1\0"), "08P01"),
    "a length of 3": (changed(1, lambda _: b"p\0\0\0\3"), "08P01"),
    "16 MB of attributes": (changed(1, lambda _: b"p" + struct.pack("!i", 1 << 24) + b"x" * 1000), "54000"),
    "a long nonce": (changed(1, lambda _: first_of(b"n,,n=,r=" + b"x" * 1048530)), "54000"),
}


def hostile(pool, expect):
    """Logins that are bent."""
    for name, (bend, code) in HOSTILE.items():
        told = ends(pool, bend=bend)
        expect(told == code, f"{name}: {told}, not {code}")
    kept = {}

    def keep(number, message):
        kept[number] = message
        return [message]

    nonce = base64.b64encode(os.urandom(18))
    expect(ends(pool, bend=keep, nonce=nonce) is None, "a right login is refused")
    told = ends(pool, bend=lambda number, message: [kept[number]], nonce=nonce)
    expect(told == "08P01", f"a login that is played again: {told}")
    twice = b"".join(b"%s\0%s\0" % pair for pair in ((b"user", USER.encode()), (b"user", b"pool"))) + b"\0"
    start = struct.pack("!ii", len(twice) + 8, 196608) + twice
    expect(ends(pool, bend=changed(0, lambda _: start)) == "08P01", "a start message with two users")
    ssl = struct.pack("!ii", 8, 80877103)
    login = Login(pool, bend=changed(0, lambda _: ssl))
    told = login.input.read(1)
    login.socket.sendall(ssl)
    told += login.input.read()
    expect(told.startswith(b"NE") and b"C08P01\0" in told, f"two requests for encryption: {told}")
    login.close()
    for cancel in (struct.pack("!iiii", 16, 80877102, 1, 1), b""):
        login = Login(pool, bend=changed(0, lambda _, cancel=cancel: cancel))
        login.socket.shutdown(socket.SHUT_WR)
        expect(login.hear() is None, "a connection that says nothing is answered")
        login.close()


def places(pool, expect):
    """Each place within a message of a right login: the message's number, and a count of its bytes."""
    lengths = []

    def measure(number, message):
        lengths.append(len(message))
        return [message]

    expect(ends(pool, bend=measure) is None, "a right login is refused")
    return [(number, place) for number, length in enumerate(lengths) for place in range(1, length)]


def cut(pool, expect):
    """Each message of a right login, cut at each byte."""
    count = 0
    for number, place in places(pool, expect):
        told = ends(pool, bend=cut_at(number, place))
        expect(told is None, f"message {number} cut at {place}: {told}")
        count += 1
    return count


class Ending(Login):
    """A login of a client that ends within a message: behind so many of its bytes."""

    def __init__(self, pool, stop, place):
        self.stop, self.place = stop, place
        super().__init__(pool)

    def put(self, message):
        """Sends a message, or the front of the last one."""
        if self.number < self.stop:
            super().put(message)
        else:
            self.socket.sendall(message[: self.place])
            self.socket.shutdown(socket.SHUT_WR)


def ended(pool, expect):
    """A client that ends within a message is not let in and told nothing, whichever byte was its last."""
    for number, place in places(pool, expect):
        login = Ending(pool, number, place)
        try:
            told = login.run(OPEN)
        except TimeoutError:
            told = "nothing for ten seconds"
        login.close()
        expect(told == "closed", f"a client that ends in message {number} behind {place} bytes is told {told}")


def held_by(pool):
    """How many files and threads the pool has."""
    number = pool.number()
    return len(os.listdir(f"/proc/{number}/fd")), len(os.listdir(f"/proc/{number}/task"))


def leaves_nothing(pool, first, expect):
    """The pool soon has as many files and threads as at first."""
    end = time.monotonic() + 5
    while held_by(pool) != first and time.monotonic() < end:
        time.sleep(0.1)
    expect(held_by(pool) == first, f"files and threads are {held_by(pool)}, and were {first}")


def strangers(pool, expect):
    """A name that no user has looks like a wrong password."""
    challenges, took = {}, {}
    for user in (USER, "nobody", "nobody", "other"):
        login, begun = Login(pool, user=user), time.monotonic()
        told = login.run("wrong")
        took.setdefault(user, []).append(time.monotonic() - begun)
        expect(told == "28P01", f"{user} with a wrong password: {told}")
        challenges.setdefault(user, []).append(SALT_AT.match(login.challenge).groups()[1:])
        login.close()
    salts = {user: given[0][0] for user, given in challenges.items()}
    expect(challenges["nobody"][0] == challenges["nobody"][1], "the salt of a name is another one the second time")
    expect(len(set(salts.values())) == 3, f"two names have one salt: {salts}")
    expect({len(salt) for salt in salts.values()} == {24}, f"the salts are {salts}")
    expect({given[0][1] for given in challenges.values()} == {b"4096"}, "the rounds differ")


def asked(pool, password, user=USER, text=READ):
    """What psql writes and says, and its status."""
    words = [f"{POSTGRES}/psql", "-X", "-w", "-A", "-t", "-h", "127.0.0.1", "-p", str(pool.port), "-U", user, "-c", text, DATABASE]
    environment = {key: value for key, value in os.environ.items() if not key.startswith("PG")}
    if password is not None:
        environment["PGPASSWORD"] = password
    return subprocess.run(words, env=environment, stdin=subprocess.DEVNULL, capture_output=True, encoding="utf-8", timeout=60, check=False)


def by_psql(pool, expect):
    """psql with a right password, a wrong one, and none."""
    done = asked(pool, OPEN)
    expect(done.returncode == 0 and done.stdout == "0\n", f"psql with the right password: {done}")
    done = asked(pool, OPEN, text="UPDATE accounts SET v = v + 1 WHERE id = 1")
    expect(done.stdout == "UPDATE 1\n", f"psql writes: {done}")
    for password, user in (("wrong", USER), (KEPT, USER), (OPEN, "bob")):
        done = asked(pool, password, user)
        expect(done.returncode == 2 and "password authentication failed" in done.stderr, f"psql with a wrong password: {done}")
    done = asked(pool, None)
    expect(done.returncode == 2 and "no password supplied" in done.stderr, f"psql without a password: {done}")


PSYCOPG2 = """import sys, psycopg2
try:
    c = psycopg2.connect(host="127.0.0.1", port=int(sys.argv[1]), user=sys.argv[2], password=sys.argv[3], dbname=sys.argv[4])
    k = c.cursor(); k.execute("SELECT v FROM accounts WHERE id = 2"); print(k.fetchall())
except psycopg2.OperationalError as why:
    print("password authentication failed" in str(why))
"""
NODE = """const {Client} = require('pg'); const [port, user, password, database] = process.argv.slice(1);
const c = new Client({host: '127.0.0.1', port, user, password, database});
c.connect().then(() => c.query('SELECT v FROM accounts WHERE id = 2')).then(r => { console.log(JSON.stringify(r.rows)); return c.end(); })
  .catch(e => { console.log(e.code); process.exit(0); });
"""
RUBY = """require 'pg'
begin
  c = PG.connect(host: '127.0.0.1', port: ARGV[0], user: ARGV[1], password: ARGV[2], dbname: ARGV[3])
  puts c.exec('SELECT v FROM accounts WHERE id = 2').values.inspect
rescue PG::Error => e
  puts e.message.include?('password authentication failed')
end
"""
JDBC = "/usr/share/java/postgresql.jar"
DRIVERS = {
    "JDBC": (["test", "-e", JDBC], ["java", "-cp", JDBC, f"{TOP}/scripts/clients/Login.java"], ("0", "28P01")),
    "psycopg2": (["/usr/bin/python3", "-c", "import psycopg2"], ["/usr/bin/python3", "-c", PSYCOPG2], ("[(0,)]", "True")),
    "node-pg": (["node", "-e", "require('pg')"], ["node", "-e", NODE, "--"], ('[{"v":0}]', "28P01")),
    "ruby-pg": (["ruby", "-e", "require 'pg'"], ["ruby", "-e", RUBY, "--"], ('[["0"]]', "true")),
}


def by_driver(servers, pool, name, expect):
    """A driver with a right password and a wrong one. None: it is not there."""
    is_there, words, wanted = DRIVERS[name]
    # (where the trial of node-pg has unpacked it)
    environment = {**os.environ, "NODE_PATH": f"/usr/share/nodejs:{servers.folder}/node/usr/share/nodejs"}
    given = {"env": environment, "cwd": "/", "stdin": subprocess.DEVNULL, "capture_output": True, "timeout": 60, "check": False}
    try:
        if subprocess.run(is_there, **given).returncode:
            return None
    except OSError:
        return None
    for password, want in zip((OPEN, "wrong"), wanted):
        done = subprocess.run([*words, str(pool.port), USER, password, DATABASE], encoding="utf-8", **given)
        expect(done.stdout.strip() == want, f"{name} with {password}: {done.stdout} {done.stderr}, not {want}")
    return name


def refused_at_servers(pool, text=READ):
    """The code that a statement of the pool's own user gets, who is let in at the pool by its password."""
    login = Login(pool)
    try:
        if code := login.run(OPEN):
            return code
        while (told := login.hear()) and told[0] != b"Z":
            pass
        body = text.encode() + b"\0"
        login.socket.sendall(b"Q" + struct.pack("!i", len(body) + 4) + body)
        told = login.hear()
        return re.search(rb"\0C(.....)\0", b"\0" + told[1])[1].decode() if told and told[0] == b"E" else None
    finally:
        login.close()


def clients_trial(servers, words, expect):
    """Users with passwords at the pool, before servers that ask the pool for one."""
    let_in_by(servers, "scram-sha-256")
    pool = pool_of(servers, words, backend_password=KEPT)
    try:
        by_psql(pool, expect)
        seen = [name for name in DRIVERS if by_driver(servers, pool, name, expect)]
        lines = [line for line in pool.lines() if "its password is wrong" in line]
        expect(len(lines) >= 3, f"the pool says {pool.lines()}")
        lines = [line for line in pool.lines() if "others than its owner" in line]
        expect(len(lines) == 1, f"the pool says {pool.lines()}")
        return f"psql {' '.join(seen)}"
    finally:
        pool.stop()


def ticks_of(number):
    """How much processor a process has taken, in hundredths of a second."""
    with open(f"/proc/{number}/stat", encoding="latin-1") as file:
        parts = file.read().rpartition(")")[2].split()
    return int(parts[11]) + int(parts[12])


def cost_of(pool, count, expect):
    """How many milliseconds of processor the pool takes for a client's login: for its own at the servers too, where they ask."""
    ticks = ticks_of(pool.number())
    for _ in range(count):
        expect(ends(pool) is None, "a right login is refused")
    return (ticks_of(pool.number()) - ticks) * 10 / count


def cost_trial(servers, words, expect):
    """A login of 4,096 rounds takes the pool less than 20 milliseconds of processor: that of a client, and its own at each server."""
    costs = {}
    for way in ("trust", "scram-sha-256"):
        let_in_by(servers, way)
        pool = pool_of(servers, words, backend_password=KEPT)
        try:
            cost_of(pool, 5, expect)
            costs[way] = cost_of(pool, LOGINS, expect)
        finally:
            pool.stop()
    let_in_by(servers, "trust")
    own = (costs["scram-sha-256"] - costs["trust"]) / len(servers.all)
    expect(costs["trust"] < MOST and own < MOST, f"a client's login takes {costs['trust']:.1f} ms, and one at a server {own:.1f} ms")
    return f"a client's {costs['trust']:.1f} ms of processor, one at a server {own:.1f} ms"


def hostile_trial(servers, words, expect):
    """Logins that are cut and bent."""
    let_in_by(servers, "scram-sha-256")
    pool = pool_of(servers, words, backend_password=KEPT)
    try:
        expect(ends(pool) is None, "a right login is refused")
        time.sleep(0.3)
        first = held_by(pool)
        hostile(pool, expect)
        strangers(pool, expect)
        ended(pool, expect)
        count = cut(pool, expect)
        leaves_nothing(pool, first, expect)
        expect(ends(pool) is None, "behind them a right login is refused")
        return f"{count} cuts"
    finally:
        pool.stop()


def rounds_trial(servers, words, expect):
    """A verifier of no rounds, of 2^31 or of more digits than it needs is refused by its line, before the pool listens."""
    right = verifier(OPEN)
    for rounds in ("0", "2147483648", "100001", "04096", ""):
        bad = right.replace("$4096:", f"${rounds}:")
        try:
            servers.pool(words, folder=tempfile.mkdtemp(dir=servers.folder), more=[f"scram_user0 = '{USER}'", f"scram_verifier0 = '{bad}'"]).stop()
            told = "it listens"
        except NotServed as why:
            told = str(why)
        expect("ends with 2" in told and "scram_verifier0" in told, f"a verifier of {rounds or 'no'} rounds: {told}")
    return None


def at_once(pool, password, count):
    """So many logins at once: how each ends, and behind which time."""
    told, begun = [], time.monotonic()

    def one():
        end = ends(pool, password)
        told.append((end, time.monotonic() - begun))

    threads = [threading.Thread(target=one) for _ in range(count)]
    for thread in threads:
        thread.start()
    for thread in threads:
        thread.join()
    return told


def tries_trial(servers, words, expect):
    """Three answers a second are told at one address; right passwords do not count."""
    let_in_by(servers, "trust")
    pool = pool_of(servers, words)
    try:
        told = at_once(pool, "wrong", 12)
        expect(all(end == "28P01" for end, _ in told), f"wrong passwords: {told}")
        times = sorted(moment for _, moment in told)
        near = [(a, b) for a, b in zip(times, times[3:]) if b - a < 0.9]
        expect(not near, f"four answers within a second: {times}")
        lines = [line for line in pool.lines() if "tried too fast" in line]
        expect(len(lines) == 1, f"it is told {len(lines)} times")
        time.sleep(1)
        right = at_once(pool, OPEN, 30)
        expect(all(end is None for end, _ in right), f"right passwords: {right}")
        slowest = max(moment for _, moment in right)
        expect(slowest < 8, f"30 right passwords take {slowest:.1f} s")
        return f"12 wrong in {times[-1]:.1f} s, 30 right in {slowest:.1f} s"
    finally:
        pool.stop()


def servers_trial(servers, words, expect):
    """Servers that ask the pool for what it has, and for what it does not show."""
    cases = [("scram-sha-256", KEPT, "scram-sha-256", {"backend_password": KEPT}, None, None)]
    cases += [("scram-sha-256", KEPT, "scram-sha-256", {"backend_password": "other"}, "28P01", None)]
    cases += [("scram-sha-256", KEPT, "scram-sha-256", {}, "28000", "backend_password is not set")]
    cases += [("md5", KEPT, "md5", {"backend_password": KEPT}, "28000", "by MD5")]
    cases += [("md5", KEPT, "scram-sha-256", {"backend_password": KEPT}, None, None)]
    cases += [("password", KEPT, "scram-sha-256", {"backend_password": KEPT}, "28000", "in clear text")]
    cases += [("trust", KEPT, "scram-sha-256", {}, None, None)]
    for way, password, kept, more, code, line in cases:
        let_in_by(servers, way, password, kept)
        pool = pool_of(servers, words, **more)
        try:
            told = refused_at_servers(pool)
            expect(told == code, f"{way}, {kept}, {more}: {told}, not {code}: {pool.lines()}")
            expect(not line or any(line in said for said in pool.lines()), f"{way}: the pool says {pool.lines()}")
        finally:
            pool.stop()
    let_in_by(servers, "trust")
