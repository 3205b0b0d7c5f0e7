"""Servers that do not know the password, or say of it what none may: the pool refuses each by name, and the others are served."""
import base64
import contextlib
import hashlib
import hmac
import os
import re
import socket
import struct
import tempfile
import time

import passwords
from doubles import Double
from passwords import ASKED, KEPT, OPEN, USER, Login, held_by, let_in_by, settings, ticks_of

FIRST = re.compile(rb"^n,,n=[^,]*,r=([!-+\--~]+)$")
LAST = re.compile(rb"^c=biws,r=([!-+\--~]+),p=([A-Za-z0-9+/=]+)$")
SALT = base64.b64encode(b"0123456789abcdef")
LINE = "has not shown that it knows the password"


def framed(number, body=b""):
    """A request of authentication."""
    return b"R" + struct.pack("!ii", len(body) + 8, number) + body


def signature(password, rounds, auth):
    """The server's signature of an exchange, and the key that a proof has to be made of."""
    salted = hashlib.pbkdf2_hmac("sha256", password.encode(), base64.b64decode(SALT), rounds)
    key = hmac.digest(salted, b"Server Key", "sha256")
    return b"v=" + base64.b64encode(hmac.digest(key, auth, "sha256"))


class Impostor(Double):
    """A server that plays one part to each client that comes, and counts what it hears behind it."""

    def __init__(self, part):
        self.part, self.seen, self.faults = part, [], []
        super().__init__()

    def serve(self, client):
        """Plays the part, and hears the client to its end."""
        with client:
            client.settimeout(30)
            try:
                user = self.start_of(client)
                if user == USER:
                    self.part(Exchange(client))
                    self.seen.append(last_of(client))
                elif user is not None:
                    client.sendall(ASKED)
                    client.recv(1 << 16)
            except (OSError, AssertionError, struct.error) as why:
                self.faults.append(repr(why))

    @staticmethod
    def start_of(client):
        """The user of a start message. None: the client is gone, or asks whether anybody is there."""
        while True:
            head = client.recv(8, socket.MSG_WAITALL)
            if len(head) < 8:
                return None
            length, code = struct.unpack("!ii", head)
            if code != 80877103:
                break
            client.sendall(b"N")
        names = client.recv(length - 8, socket.MSG_WAITALL).split(b"\0")
        return dict(zip(names[::2], names[1::2])).get(b"user", b"").decode()


class Exchange:
    """An exchange with the pool, as a server."""

    def __init__(self, client):
        self.client = client

    def say(self, number, body=b""):
        """Says a request of authentication."""
        self.client.sendall(framed(number, body))

    def hear(self):
        """The body of the next message p."""
        kind, length = struct.unpack("!ci", self.client.recv(5, socket.MSG_WAITALL))
        assert kind == b"p", kind
        return self.client.recv(length - 4, socket.MSG_WAITALL)

    def open(self):
        """Asks for a password. The pool's nonce."""
        self.client.sendall(ASKED)
        body = self.hear()
        self.bare = body[18 + 3 :]
        return FIRST.match(body[18:])[1]

    def challenge(self, rounds, nonce=None):
        """Asks for a proof of so many rounds."""
        own = self.open()
        self.text = b"r=%s,s=%s,i=%s" % (own + b"xyz" if nonce is None else nonce, SALT, rounds)
        self.say(11, self.text)

    def proved(self, password=KEPT, rounds=4096):
        """Asks for a proof and hears it. The server's signature with this password."""
        self.challenge(b"%d" % rounds)
        last = self.hear()
        assert LAST.match(last), last
        return signature(password, rounds, b",".join((self.bare, self.text, last[: last.index(b",p=")])))


def last_of(client):
    """What the pool says last."""
    try:
        return client.recv(1 << 16)
    except ConnectionResetError:
        return b""


def lets_in(exchange):
    """The server is ready, for whoever is still there."""
    with contextlib.suppress(ConnectionError):
        exchange.say(0)
        exchange.client.sendall(b"Z\0\0\0\5I")


def asks_for(rounds):
    """The part of a server that asks for a proof of so many rounds."""
    return lambda exchange: exchange.challenge(rounds)


def another_nonce(exchange):
    """The nonce does not begin with the pool's."""
    exchange.challenge(b"4096", nonce=base64.b64encode(os.urandom(18)))


def asks_twice(exchange):
    """It asks for a password anew in place of the proof."""
    exchange.open()
    exchange.client.sendall(ASKED)


def skips_the_proof(exchange):
    """It lets the pool in where it has asked for a password and seen nothing."""
    exchange.open()
    lets_in(exchange)


def skips_the_signature(exchange):
    """It lets the pool in behind the proof, and shows nothing."""
    exchange.proved()
    lets_in(exchange)


def wrong_signature(exchange):
    """It shows the signature of another password."""
    exchange.say(12, exchange.proved(password="other"))
    lets_in(exchange)


def short_signature(exchange):
    """It shows a signature that is cut."""
    exchange.say(12, exchange.proved()[:-4])
    lets_in(exchange)


def an_error(exchange):
    """It says an error in place of its signature."""
    exchange.proved()
    exchange.say(12, b"e=other-error")
    lets_in(exchange)


def right(exchange):
    """It knows the password."""
    exchange.say(12, exchange.proved())
    lets_in(exchange)


PARTS = {f"{rounds.decode() or 'no'} rounds": asks_for(rounds) for rounds in (b"0", b"2147483648", b"4294967296", b"100001", b"-1", b"", b"04096")}
PARTS |= {"another nonce": another_nonce, "asked twice": asks_twice, "no proof": skips_the_proof}
PARTS |= {"no signature": skips_the_signature, "wrong signature": wrong_signature, "short signature": short_signature, "an error": an_error}


def pool_before(servers, words, ports):
    """A pool before servers at these ports, which shows them its password."""
    folder, own = tempfile.mkdtemp(dir=servers.folder), servers.ports
    servers.ports = lambda: ports
    try:
        return servers.pool(words, folder=folder, more=settings(backend_password=KEPT))
    finally:
        servers.ports = own


def nodes_of(pool):
    """What SHOW pool_nodes says of each backend, to a user with its password."""
    login = Login(pool)
    try:
        assert login.run(OPEN) is None
        while (told := login.hear()) and told[0] != b"Z":
            pass
        body = b"SHOW pool_nodes\0"
        login.socket.sendall(b"Q" + struct.pack("!i", len(body) + 4) + body)
        rows = []
        while (told := login.hear()) and told[0] != b"Z":
            if told[0] == b"D":
                rows.append(told[1])
        return ["up" if b"\0\0\0\2up" in row else "down" for row in rows]
    finally:
        login.close()


def writes(pool):
    """The code of a write by a user with its password, or None."""
    return passwords.refused_at_servers(pool, "UPDATE accounts SET v = v + 1 WHERE id = 1")


def refused(servers, words, name, part, expect):
    """One impostor in place of a server: it is refused at once and by name, it alone is detached, and nothing is left of it."""
    impostor = Impostor(part)
    pool = pool_before(servers, words, [servers.all[0].port, impostor.port, servers.all[2].port])
    try:
        time.sleep(0.3)
        first, ticks = held_by(pool), ticks_of(pool.number())
        begun = time.monotonic()
        code = writes(pool)
        took, ticks = time.monotonic() - begun, ticks_of(pool.number()) - ticks
        expect(code is None, f"{name}: a client is told {code}: {pool.lines()}")
        expect(took < 5 and ticks < 100, f"{name}: a client waits for {took:.1f} s, and the pool works for {ticks / 100} s")
        expect(nodes_of(pool) == ["up", "down", "up"], f"{name}: the backends are {nodes_of(pool)}: {pool.lines()}")
        place = f"backend 1 (127.0.0.1, port {impostor.port}) "
        told = [line for line in pool.lines() if LINE in line]
        expect(told and all(place in line for line in told), f"{name}: the pool says {pool.lines()}")
        expect(not impostor.faults and impostor.seen, f"{name}: the impostor met {impostor.faults}")
        expect(not any(impostor.seen), f"{name}: the pool says {impostor.seen} to it")
        time.sleep(0.3)
        expect(held_by(pool) == first, f"{name}: files and threads are {held_by(pool)}, and were {first}")
    finally:
        pool.stop()
        impostor.close()


def believed(servers, words, expect):
    """One that knows the password is let play a server."""
    impostor = Impostor(right)
    pool = pool_before(servers, words, [servers.all[0].port, impostor.port, servers.all[2].port])
    try:
        told, end = passwords.ends(pool), time.monotonic() + 5
        while not impostor.seen and time.monotonic() < end:
            time.sleep(0.05)
        expect(told is None and impostor.seen and not impostor.faults, f"a client is told {told}, and the impostor met {impostor.faults}")
        expect(not any(LINE in line or "detaches" in line for line in pool.lines()), f"the pool says {pool.lines()}")
    finally:
        pool.stop()
        impostor.close()


def trial(servers, words, expect):
    """Servers that ask for 0 rounds or 2^31, for another nonce, or show no signature, each in place of one of three."""
    let_in_by(servers, "scram-sha-256")
    believed(servers, words, expect)
    for name, part in PARTS.items():
        refused(servers, words, name, part, expect)
        servers.at(servers.all[1], "UPDATE accounts SET v = v + 1 WHERE id = 1")  # what it did not hear of
    let_in_by(servers, "trust")
    return f"{len(PARTS)} servers refused"
