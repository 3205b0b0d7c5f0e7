"""Clients that a server turns away, connections that break, and a pool without descriptors: no server is detached for any of them."""
import os
import subprocess
import tempfile
import threading
import time

from postgres import Client
from serving import DATABASE

TEXT = "SELECT count(*) FROM accounts"
WRITERS = 8
ENDED = 12  # so many sessions are ended under the writers
LIMIT = 64  # files that the pool may open, in one trial
OWN = "FROM pg_stat_activity WHERE backend_type = 'client backend' AND pid <> pg_backend_pid()"


def told_at(pool, **named):
    """With what code a client is refused at its start, or nothing."""
    try:
        client = Client(("127.0.0.1", pool.port), **{"database": DATABASE, **named})
    except (ConnectionError, EOFError) as why:
        return str(why)
    client.close()
    return ""


def all_served(pool, expect):
    """Nobody was detached, and the other clients are served."""
    detached = [line for line in pool.lines() if "detaches" in line]
    expect(not detached, f"servers are detached: {detached}")
    client = pool.connect()
    nodes = [row[3].decode() for row in client.ask("SHOW pool_nodes").rows]
    expect(nodes == ["up"] * 3, f"the backends are {nodes}")
    answer = client.ask(TEXT)
    expect(answer.tag == "SELECT 1", f"the other clients are told {answer}")
    client.close()


def line_of(pool, what, expect):
    """The line that an operator has of a client that was turned away."""
    time.sleep(0.1)
    lines = [line for line in pool.lines() if what in line]
    expect(lines, f"no line has '{what}': {pool.lines()}")
    return lines[-1].split(" pool: ")[1]


def turned_away(pool, number, code, expect, **client):
    """Three such clients are told the code of that server, a line says so, and no server is detached. Gives the line."""
    told = [told_at(pool, **client) for _ in range(3)]
    expect(told == [code] * 3, f"the clients are told {told}")
    line = line_of(pool, "turns it away", expect)
    expect(f"backend {number} " in line and code in line, line)
    all_served(pool, expect)
    return line


def database_of_one(servers, pool, expect):
    """A database that one server alone has."""
    servers.at(servers.all[1], "DROP DATABASE IF EXISTS alone", "postgres")
    servers.at(servers.all[1], "CREATE DATABASE alone", "postgres")
    return turned_away(pool, 0, "3D000", expect, database="alone")


def role_of_two(servers, pool, expect):
    """A role that one server does not know."""
    for number, server in enumerate(servers.all):
        servers.at(server, "DROP ROLE IF EXISTS half")
        if number != 2:
            servers.at(server, "CREATE ROLE half LOGIN")
            servers.at(server, "GRANT ALL ON accounts TO half")
    return turned_away(pool, 2, "28000", expect, user="half")


def limit_of_one(servers, pool, expect):
    """One server's limit of connections."""
    for number, server in enumerate(servers.all):
        servers.at(server, "DROP OWNED BY few")
        servers.at(server, "DROP ROLE IF EXISTS few")
        servers.at(server, f"CREATE ROLE few LOGIN{' CONNECTION LIMIT 1' if number == 1 else ''}")
        servers.at(server, "GRANT ALL ON accounts TO few")
    first = Client(("127.0.0.1", pool.port), DATABASE, "few")
    expect(first.ask(TEXT).tag == "SELECT 1", "the first client is not served")
    told = [told_at(pool, user="few") for _ in range(3)]
    expect(told == ["53300"] * 3, f"the clients behind it are told {told}")
    expect(first.ask("UPDATE accounts SET v = v + 1 WHERE id = 1").tag == "UPDATE 1", "the first is served no more")
    first.close()
    line = line_of(pool, "turns it away", expect)
    expect("backend 1 " in line and "53300" in line, line)
    all_served(pool, expect)
    return line


def write_on(pool, number, over, counts):
    """Writes until it is over. A session that ends is begun anew."""
    done = ended = 0
    key = number + 1
    while not over.is_set():
        try:
            client = pool.connect()
            while not over.is_set():
                answer = client.ask(f"UPDATE accounts SET v = v + 1 WHERE id = {key}")
                if answer.tag == "UPDATE 1":
                    done += 1
                elif answer.code not in ("40001", "53200", "57P01"):
                    counts[number] = f"an update is told {answer}"
                    return
            client.close()
        except (ConnectionError, EOFError, OSError):
            ended += 1
            time.sleep(0.01)
    counts[number] = (done, ended)


def end_newest(servers, number):
    """Ends the session at a server that has begun last. Whether there was one."""
    of_pool = f"{OWN} AND datname = '{DATABASE}' ORDER BY backend_start DESC LIMIT 1"
    return len(servers.at(servers.all[number], f"SELECT pg_terminate_backend(pid) {of_pool}", "postgres").rows) == 1


def is_ended(client, text):
    """Whether the session ends in place of an answer."""
    try:
        answer = client.ask(text)
    except (ConnectionError, EOFError):
        return True
    return answer.code == "57P01"


def ends_victims(servers, pool, expect):
    """Sessions in a block, and sessions at rest, are ended at one server after the other."""
    for turn in range(ENDED):
        victim = pool.connect()
        block = ["BEGIN", f"INSERT INTO notes (id, body) VALUES ({turn + 1000}, 'victim')"]
        told = [victim.ask(text) for text in (block if turn % 2 else [TEXT])]
        expect(all(answer.code is None for answer in told), f"the session is told {told}")
        time.sleep(0.05)
        expect(end_newest(servers, turn % 3), "the session is not there")
        expect(is_ended(victim, "UPDATE notes SET body = 'x' WHERE id = 1"), f"session {turn} goes on")
        victim.close()


def ended_under_writers(servers, words, expect):
    """pg_terminate_backend of one session after another, under writers: the session ends, and no server is detached. The pool has
    PGDATABASE, and so a connection of its own."""
    pool = servers.pool_of_its_own(words)
    over, counts = threading.Event(), {}
    writers = [threading.Thread(target=write_on, args=(pool, number, over, counts)) for number in range(WRITERS)]
    try:
        for writer in writers:
            writer.start()
        time.sleep(1)  # so that the sessions of the writers have begun before those that are ended
        ends_victims(servers, pool, expect)
        over.set()
        for writer in writers:
            writer.join(30)
        whole = [count for count in counts.values() if isinstance(count, tuple)]
        expect(len(whole) == WRITERS, f"the writers say {counts}")
        expect(sum(ended for _, ended in whole) == 0, f"sessions of writers have ended: {counts}")
        all_served(pool, expect)
        return f"{ENDED} sessions ended under {sum(done for done, _ in whole)} updates"
    finally:
        over.set()
        pool.stop()


def without_files(servers, pool, expect):
    """A pool that may open no more files refuses the clients that come, and no server is detached."""
    clients = [pool.connect() for _ in range(4)]
    for client in clients:
        expect(client.ask(TEXT).tag == "SELECT 1", "a client is not served")
    pid = served_by(pool)
    held = len(os.listdir(f"/proc/{pid}/fd"))
    subprocess.run(["prlimit", "--pid", str(pid), f"--nofile={held + 3}:4096"], check=True)
    told = [told_at(pool) for _ in range(5)]
    expect(all(code == "53300" for code in told), f"the clients are told {told}")
    for number, client in enumerate(clients):
        answer = client.ask(f"UPDATE accounts SET v = v + 1 WHERE id = {number + 1}")
        expect(answer.tag == "UPDATE 1", f"a client that was there is told {answer}")
    subprocess.run(["prlimit", "--pid", str(pid), "--nofile=4096:4096"], check=True)
    line = line_of(pool, "there is no link", expect)
    all_served(pool, expect)
    for client in clients:
        client.close()
    return line


def served_by(pool):
    """The process of the program itself."""
    pid = pool.child.pid
    while True:
        with open(f"/proc/{pid}/task/{pid}/children", encoding="ascii") as file:
            children = file.read().split()
        if not children:
            return pid
        pid = int(children[0])


def idle_at_a_limit(servers, words, expect):
    """29 idle clients where the pool may open 64 files: some are refused, and no server is detached."""
    limited = ["sh", "-c", f'ulimit -n {LIMIT}; exec "$@"', "sh", *words]
    pool = servers.pool(limited, folder=tempfile.mkdtemp(dir=servers.folder))
    try:
        clients, told = [], []
        for _ in range(29):
            try:
                clients.append(pool.connect())
            except (ConnectionError, EOFError) as why:
                told.append(str(why))
        expect(clients and set(told) <= {"53300", ""}, f"{len(clients)} are served, and the others are told {told}")
        for client in clients:
            expect(client.ask(TEXT).tag == "SELECT 1", "a client is not served")
        for client in clients:
            client.close()
        time.sleep(0.3)
        all_served(pool, expect)
        return f"{len(clients)} served, {len(told)} refused"
    finally:
        pool.stop()


OF_A_POOL = {"database of one server": database_of_one, "role of two servers": role_of_two, "limit of one server": limit_of_one}
OF_A_POOL |= {"no more files": without_files}
OF_ITS_OWN = {"sessions ended": ended_under_writers, "idle at a limit": idle_at_a_limit}
