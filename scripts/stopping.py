"""The trials of the pool's end and of clients that are put out or gone, before the servers of scripts/servers."""
import contextlib
import os
import random
import signal
import socket
import subprocess
import threading
import time

from serving import DATABASE

STOPS = 20
WRITERS = 8


def writes(pool, number, told):
    """A client changes its row, alone and in blocks with a row that is numbered, until it is put out. It counts what it is told of."""
    with contextlib.suppress(OSError, EOFError, ConnectionError):
        client = pool.connect()
        while client.ask(f"UPDATE accounts SET v = v + 1 WHERE id = {number}").tag == "UPDATE 1":
            told[number] += 1
            for text in ("BEGIN", f"UPDATE accounts SET v = v + 1 WHERE id = {number}", "INSERT INTO tickets (name) VALUES ('a')"):
                client.ask(text)
            if client.ask("COMMIT").tag == "COMMIT":
                told[number] += 1


def ended(pool, patience):
    """How the pool ends within so many seconds, and how long that took."""
    begun = time.monotonic()
    try:
        return pool.child.wait(patience), time.monotonic() - begun
    except subprocess.TimeoutExpired:
        return None, patience


def under_load(servers, pool, expect):
    """TERM under eight writers, twenty times: the pool ends with status 0, the servers are equal, and no change that a client was told of is lacking."""
    told, longest = dict.fromkeys(range(1, WRITERS + 1), 0), 0.0
    for turn in range(STOPS):
        writers = [threading.Thread(target=writes, args=(pool, one, told)) for one in told]
        for writer in writers:
            writer.start()
        time.sleep(random.uniform(0.2, 1.2))
        pool.child.send_signal(signal.SIGTERM if turn % 2 else signal.SIGINT)
        status, took = ended(pool, 30)
        for writer in writers:
            writer.join(30)
        expect(status == 0, f"stop {turn} ends with {status} after {took:.1f} s: {pool.lines()[-5:]}")
        expect(not servers.differing(), f"the servers {servers.differing()} differ behind stop {turn}")
        rows = {int(one): int(v) for one, v in servers.at(servers.all[0], f"SELECT id, v FROM accounts WHERE id <= {WRITERS}").rows}
        lacks = {one: (rows[one], count) for one, count in told.items() if rows[one] < count}
        expect(not lacks, f"behind stop {turn} changes are lacking: {lacks}")
        said = [line.split(" pool: ")[1] for line in pool.lines() if " pool: stops" in line or " pool: has stopped" in line]
        expect(said == ["stops: no client is taken any more", "has stopped: no session is left"], f"the lines are {said}")
        longest = max(longest, took)
        pool.start()
        pool.wait()
    return f"{STOPS} stops, {sum(told.values())} changes, at most {longest:.1f} s to the end"


def put_out(client):
    """The code with which a client is put out that asks nothing."""
    try:
        return client.answer().code
    except (OSError, EOFError) as fault:
        return f"{fault!r}"


def in_place(servers, pool, expect):
    """A session at rest is told 57P01 at once; one in a block has ten seconds, and one that waits for a row too; nobody comes in."""
    rests, block, waiter = (pool.connect() for _ in range(3))
    holder = servers.all[0].connect(DATABASE)
    block.ask("BEGIN")
    block.ask("UPDATE accounts SET v = v + 1 WHERE id = 1")
    holder.ask("BEGIN")
    holder.ask("UPDATE accounts SET v = v + 1 WHERE id = 2")
    codes, begun = {}, time.monotonic()
    waits = threading.Thread(target=lambda: codes.update(waiter=waiter.ask("UPDATE accounts SET v = v + 1 WHERE id = 2").code))
    waits.start()
    time.sleep(0.3)
    pool.child.terminate()
    codes["rests"], at_rest = put_out(rests), time.monotonic() - begun
    expect(codes["rests"] == "57P01" and at_rest < 3, f"the session at rest is told {codes['rests']} after {at_rest:.1f} s")
    try:
        socket.create_connection(("127.0.0.1", pool.port), 2).close()
        expect(False, "a client comes in")
    except ConnectionRefusedError:
        pass
    expect(block.ask("UPDATE accounts SET v = v + 1 WHERE id = 3").tag == "UPDATE 1", "the block does not go on")
    codes["block"], in_block = put_out(block), time.monotonic() - begun
    waits.join(20)
    expect(codes == dict.fromkeys(codes, "57P01") and len(codes) == 3 and 9 < in_block < 15, f"they are told {codes}, the block after {in_block:.1f} s")
    status, _ = ended(pool, 10)
    holder.close()
    expect(status == 0 and servers.total() == 0, f"the pool ends with {status}, and {servers.total()} changes are there")
    pool.start()
    pool.wait()
    return f"a block is put out after {in_block:.1f} s"


def second_signal(servers, pool, expect):
    """HUP is ignored and told; a second TERM ends the pool at once; where the script is killed the program stops."""
    client = pool.connect()
    pool.child.send_signal(signal.SIGHUP)
    time.sleep(0.5)
    expect(client.ask("SELECT v FROM accounts WHERE id = 1").rows, "HUP ends a session")
    expect(any("hears HUP, and ignores it" in line for line in pool.lines()), f"the lines are {pool.lines()}")
    client.ask("BEGIN")
    client.ask("UPDATE accounts SET v = v + 1 WHERE id = 4")
    pool.child.terminate()
    time.sleep(1)
    expect(pool.child.poll() is None, "a block has no time")
    pool.child.terminate()
    status, took = ended(pool, 5)
    expect(status == 137 and took < 2, f"the second TERM ends it with {status} after {took:.1f} s")
    pool.start()
    pool.wait()
    rests, number = pool.connect(), pool.number()
    pool.child.kill()
    pool.child.wait()
    expect(put_out(rests) == "57P01", "where the script is killed a session is not put out")
    end = time.monotonic() + 10
    while os.path.exists(f"/proc/{number}") and time.monotonic() < end:
        time.sleep(0.05)
    expect(not os.path.exists(f"/proc/{number}"), "where the script is killed the program goes on")
    pool.start()
    pool.wait()


def vanished(servers, pool, expect):
    """The seats of clients that are gone while they wait for a row are free within six seconds, and nobody is detached."""
    pool.stop()
    pool.configure("num_init_children = 4")
    pool.start()
    pool.wait()
    holder, waiters = pool.connect(), [pool.connect() for _ in range(3)]
    for number, client in enumerate((holder, *waiters)):
        client.ask("BEGIN")
        client.ask(f"UPDATE accounts SET v = v + 1 WHERE id = {10 + number}")
    text = b"UPDATE accounts SET v = v + 1 WHERE id = 10\0"
    for client in waiters:
        client.socket.sendall(b"Q" + (len(text) + 4).to_bytes(4, "big") + text)
    time.sleep(1)
    begun = time.monotonic()
    for client in waiters:
        client.close()
    clients = []
    while len(clients) < 3 and time.monotonic() < begun + 20:
        try:
            clients.append(pool.connect())
        except ConnectionError:
            time.sleep(0.1)
    took = time.monotonic() - begun
    expect(len(clients) == 3 and took < 6, f"{len(clients)} of 3 seats are free after {took:.1f} s")
    for number, client in enumerate(clients):
        answer = client.ask(f"UPDATE accounts SET v = v + 1 WHERE id = {11 + number}")
        expect(answer.tag == "UPDATE 1", f"a row of a client that is gone is not free: {answer}")
    rows = time.monotonic() - begun
    expect(rows < 10, f"their rows are free after {rows:.1f} s")
    expect(holder.ask("COMMIT").tag == "COMMIT", "the client that stayed is not served")
    expect(not any("detaches" in line for line in pool.lines()), f"the lines are {pool.lines()}")
    return f"three seats are free after {took:.1f} s, and their rows after {rows:.1f} s"


def idle_limit(servers, pool, expect):
    """A client that is silent for longer than client_idle_limit is put out, in a block too, and one that is not is not."""
    pool.stop()
    pool.configure("client_idle_limit = 2")
    pool.start()
    pool.wait()
    rests, block, works = (pool.connect() for _ in range(3))
    block.ask("BEGIN")
    block.ask("UPDATE accounts SET v = v + 1 WHERE id = 5")
    begun, codes = time.monotonic(), []
    outs = [threading.Thread(target=lambda one=one: codes.append(put_out(one))) for one in (rests, block)]
    for out in outs:
        out.start()
    while time.monotonic() < begun + 5:
        expect(works.ask("UPDATE accounts SET v = v + 1 WHERE id = 6").tag == "UPDATE 1", "one that works is put out")
        time.sleep(0.5)
    for out in outs:
        out.join(10)
    expect(codes == ["57P01"] * 2, f"the silent ones are told {codes}")
    expect(works.ask("UPDATE accounts SET v = v + 1 WHERE id = 5").tag == "UPDATE 1", "the row of the block is not free")


TRIALS = {"stops under load": under_load, "stops in place": in_place, "second signal": second_signal}
TRIALS |= {"client gone in a wait": vanished, "idle limit": idle_limit}
