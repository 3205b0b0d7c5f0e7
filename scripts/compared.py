"""Whether servers are equal: `pool check`, and the check that `serve` makes at its start where PGDATABASE is set."""
import contextlib
import os
import re
import subprocess
import threading
import time

import passwords
from postgres import USER
from serving import DATABASE, nodes_of

ROUNDS = 20  # kills under load
WRITERS = range(1, 9)
ENVIRONMENT = {"PGUSER": USER, "PGDATABASE": DATABASE}


def differences_of(servers, words, ports, **environment):
    """How `pool check` of the servers at these ports ends, and its lines."""
    config = ["backend_clustering_mode = 'snapshot_isolation'"]
    for number, port in enumerate(ports):
        config += [f"backend_hostname{number} = '127.0.0.1'", f"backend_port{number} = {port}"]
    with open(f"{servers.folder}/checked", "w", encoding="utf-8") as file:
        file.write("\n".join(config) + "\n")
    words = [*words, "check", f"{servers.folder}/checked", f"{servers.folder}/schema"]
    pipes = {"stdin": subprocess.DEVNULL, "capture_output": True, "encoding": "utf-8"}
    done = subprocess.run(words, timeout=180, check=False, env={**os.environ, **ENVIRONMENT, **environment}, **pipes)
    return done.returncode, done.stdout.replace("pool: check: ", "").splitlines()


def differ(servers, words, expect, text, number, wanted):
    """After a change at one server the check tells these lines, and which group is kept."""
    servers.at(servers.all[number], text)
    status, lines = differences_of(servers, words, servers.ports())
    kept = " ".join(str(other) for other in range(3) if other != number)
    patterns = [*wanted, f"the largest group of equal backends: {kept}"]
    agrees = len(lines) == len(patterns) and all(re.fullmatch(one, line) for one, line in zip(patterns, lines))
    expect(status == 11 and agrees, f"after {text} the check ends with {status}: {lines}")
    servers.reset()


def check_trial(servers, pool, expect):
    """Servers that are equal are told so; a row, a type, a key, a number and a table that differ have lines; one server twice is told."""
    words, ports = pool.words, servers.ports()
    status, lines = differences_of(servers, words, ports)
    expect(status == 0 and lines == ["3 backends are equal"], f"the check ends with {status}: {lines}")
    rows = r"backend 1: accounts: 99 rows, sum -?\d+; backend 0 has 100 rows, sum -?\d+"
    differ(servers, words, expect, "DELETE FROM accounts WHERE id = 7", 1, [rows])
    rows = r"backend 1: accounts: 100 rows, sum -?\d+; backend 0 has 100 rows, sum -?\d+"
    differ(servers, words, expect, "UPDATE accounts SET v = 1 WHERE id = 7", 1, [rows])
    types = [r"backend 2: accounts: column v: bigint NOT NULL; wanted is integer NOT NULL"]
    types += [r"backend 2: accounts: columns: id integer NOT NULL, v bigint NOT NULL; backend 0 has id integer NOT NULL, v integer NOT NULL"]
    differ(servers, words, expect, "ALTER TABLE accounts ALTER v TYPE int8", 2, types)
    key = [r"backend 1: accounts: key: nothing; wanted is id"]
    differ(servers, words, expect, "ALTER TABLE accounts DROP CONSTRAINT accounts_pkey", 1, key)
    counts = [r"backend 2: tickets: sequence of id: increment 1, cache 5, no cycle; wanted is increment 1, cache 1, no cycle"]
    differ(servers, words, expect, "ALTER SEQUENCE tickets_id_seq CACHE 5", 2, counts)
    numbers = [r"backend 0: tickets: next number of id: 2; backend 1 has 1"]
    differ(servers, words, expect, "SELECT nextval('tickets_id_seq')", 0, numbers)
    gone = [rf"backend 1: notes: column {name}: nothing; wanted is .*" for name in ("id", "body", "made")]
    gone += [r"backend 1: notes: columns: nothing; backend 0 has .*", r"backend 1: notes: key: nothing; wanted is id"]
    differ(servers, words, expect, "DROP TABLE notes", 1, [*gone, r"backend 1: notes: the refusal 42P01; backend 0 has 0 rows, sum 0"])
    status, lines = differences_of(servers, words, [ports[0], ports[1], ports[0]])
    twin = [f"backend 2 (127.0.0.1, port {ports[0]}): it is the server and database of backend 0"]
    expect((status, lines) == (11, twin), f"the check ends with {status}: {lines}")
    status, lines = differences_of(servers, words, [*ports[:2], 1])
    expect(status == 11 and len(lines) == 1 and "backend 2 (127.0.0.1, port 1): it is not reached" in lines[0], f"it ends with {status}: {lines}")
    return shown_password(servers, words, expect)


def shown_password(servers, words, expect):
    """Servers that ask for a password are shown PGPASSWORD."""
    passwords.let_in_by(servers, "scram-sha-256")
    for password, wanted in ((passwords.KEPT, 0), ("wrong", 11)):
        status, lines = differences_of(servers, words, servers.ports(), PGUSER=passwords.USER, PGPASSWORD=password)
        expect(status == wanted, f"with the password {password} the check ends with {status}: {lines}")
    return lines[0]


# The check at the start


def comparing(pool):
    """The words that start the pool so that it compares the servers."""
    return ["env", *(f"{name}={value}" for name, value in ENVIRONMENT.items()), *pool.words]


def started(pool):
    """The pool is started again, and compares the servers before it listens."""
    pool.stop()
    pool.words = comparing(pool)
    pool.start()
    pool.wait(60)


def one_line(pool, expect, words):
    """There is one line with these words. Gives it."""
    told = [line for line in pool.lines() if words in line]
    expect(len(told) == 1, f"the lines are {pool.lines()}")
    return told[0].split(" pool: ")[1]


def is_out(servers, pool, expect, number, why):
    """A backend is detached for that reason, in the status file too, and the others are served."""
    line = one_line(pool, expect, "is detached: ")
    place = f"backend {number} (127.0.0.1, port {servers.all[number].port}) is detached: "
    expect(line.startswith(place) and re.fullmatch(why, line[len(place) :]), f"the line is {line}")
    said = pool.said().splitlines()[1 + number]
    expect(re.search(f" down \\S+ {why}$", said), f"the file says {said}")
    expect(nodes_of(pool) == ["down" if one == number else "up" for one in range(3)], f"the backends are {nodes_of(pool)}")
    servers.all[number].stop()
    return line


def start_trial(text, number, why):
    """The trial in which a server differs at the start: it is detached for that reason, and the others are served."""

    def trial(servers, pool, expect):
        expect("no check was made: PGDATABASE is not set" in "".join(pool.lines()), f"the lines are {pool.lines()}")
        servers.at(servers.all[number], text)
        started(pool)
        line = is_out(servers, pool, expect, number, why)
        client = pool.connect()
        expect(client.ask("INSERT INTO tickets (name) VALUES ('a')").tag == "INSERT 0 1", "the pool does not serve")
        client.close()
        return line

    return trial


def all_other_trial(servers, pool, expect):
    """Three servers that all differ: the one with the lowest number is kept."""
    for number, server in enumerate(servers.all):
        servers.at(server, f"UPDATE accounts SET v = {number} WHERE id = 7")
    started(pool)
    expect(nodes_of(pool) == ["up", "down", "down"], f"the backends are {nodes_of(pool)}")
    for server in servers.all[1:]:
        server.stop()


def none_trial(servers, pool, expect):
    """Where no server is as the schema says the pool does not start, and the status file is left as it is."""
    pool.stop()
    before = pool.said()
    for server in servers.all:
        servers.at(server, "ALTER TABLE accounts ALTER v TYPE int8")
    words = [*comparing(pool), "serve", f"{servers.folder}/config", f"{servers.folder}/schema"]
    done = subprocess.run(words, stdin=subprocess.DEVNULL, capture_output=True, encoding="utf-8", timeout=60, check=False)
    told = [line.split(" pool: ")[1] for line in done.stderr.splitlines()]
    wanted = [f"backend {number} (127.0.0.1, port {port}) cannot be served: {SHAPE}" for number, port in enumerate(servers.ports())]
    wanted += ["no backend can be served: the pool does not start"]
    expect(done.returncode == 11 and told == wanted, f"it ends with {done.returncode}: {told}")
    expect(pool.said() == before, f"the file says {pool.said()}")
    servers.reset()
    started(pool)
    expect(nodes_of(pool) == ["up"] * 3, f"the backends are {nodes_of(pool)}")


def twin_trial(servers, pool, expect):
    """One server under two numbers: the higher number is detached, and an INSERT is answered at once."""
    pool.stop()
    ports = servers.ports()
    servers.all[2].stop()
    with open(f"{servers.folder}/config", encoding="utf-8") as file:
        config = file.read()
    with open(f"{servers.folder}/config", "w", encoding="utf-8") as file:
        file.write(config.replace(f"backend_port2 = {ports[2]}", f"backend_port2 = {ports[0]}"))
    os.remove(pool.status_path)
    started(pool)
    line = one_line(pool, expect, "is detached: ")
    expect(line == f"backend 2 (127.0.0.1, port {ports[0]}) is detached: it is the server and database of backend 0", f"the line is {line}")
    expect(nodes_of(pool) == ["up", "up", "down"], f"the backends are {nodes_of(pool)}")
    client, begun = pool.connect(), time.monotonic()
    expect(client.ask("INSERT INTO tickets (name) VALUES ('a')").tag == "INSERT 0 1", "the pool does not serve")
    took = time.monotonic() - begun
    client.close()
    expect(took < 5, f"an INSERT takes {took:.1f} s")
    return line


def numbers_trial(servers, pool, expect):
    """Next numbers that differ are set to the greatest, and told."""
    for _ in range(3):
        servers.at(servers.all[1], "SELECT nextval('tickets_id_seq')")
    servers.at(servers.all[2], "SELECT nextval('tickets_id_seq')")
    started(pool)
    told = [line.split(" pool: ")[1] for line in pool.lines() if "next number" in line]
    wanted = [f"backend {b}: tickets: the next number of id was {was} and is set to 4" for b, was in ((0, 1), (2, 2))]
    expect(told == wanted, f"the lines are {pool.lines()}")
    expect(nodes_of(pool) == ["up"] * 3, f"the backends are {nodes_of(pool)}")
    client = pool.connect()
    client.ask("INSERT INTO tickets (name) VALUES ('a')")
    rows = client.ask("SELECT id FROM tickets").rows
    client.close()
    expect(rows == [[b"4"]], f"the number is {rows}")
    return told[0]


def late_commit_trial(servers, pool, expect):
    """What a connection still commits at one server is waited for, and found; where it holds on for ten seconds its server is detached."""
    pool.stop()
    client = servers.all[1].connect(DATABASE)
    for text in ("BEGIN", "UPDATE accounts SET v = v + 1 WHERE id = 9"):
        client.ask(text)
    commits = threading.Timer(4, client.ask, ["COMMIT"])
    commits.start()
    begun = time.monotonic()
    started(pool)
    took = time.monotonic() - begun
    commits.join()
    is_out(servers, pool, expect, 1, r"accounts: 100 rows, sum -?\d+; backend 0 has 100 rows, sum -?\d+")
    expect(took > 3.5, f"the pool starts after {took:.1f} s")
    pool.stop()
    servers.reset()
    client = servers.all[1].connect(DATABASE)
    for text in ("BEGIN", "UPDATE accounts SET v = v + 1 WHERE id = 9"):
        client.ask(text)
    pool.start()
    pool.wait(60)
    line = is_out(servers, pool, expect, 1, r"accounts: lock: the refusal 55P03; wanted is done")
    return f"waited for {took:.1f} s, then {line}"


# The pool is killed


def add_on(pool, number, told, over):
    """A client changes its row until the pool is gone, and counts the changes that it is told of."""
    with contextlib.suppress(OSError, EOFError, ConnectionError):
        client = pool.connect()
        while not over.is_set() and client.ask(f"UPDATE accounts SET v = v + 1 WHERE id = {number}").tag == "UPDATE 1":
            told[number] += 1
            if client.ask("INSERT INTO tickets (name) VALUES ('a')").code is None:
                told[0] += 1


def killed_round(pool, seconds):
    """The pool is killed under eight writers. What each was told of, and how often."""
    told, over = dict.fromkeys([0, *WRITERS], 0), threading.Event()
    writers = [threading.Thread(target=add_on, args=(pool, one, told, over)) for one in WRITERS]
    for writer in writers:
        writer.start()
    time.sleep(seconds)
    pool.kill()
    over.set()
    for writer in writers:
        writer.join()
    return told


def lacking(servers, server, told, before):
    """Which changes that clients were told of are not at a server."""
    rows = servers.at(server, "SELECT id, v FROM accounts WHERE id <= 8").rows
    lacks = {int(one): int(v) for one, v in rows if int(v) < before[int(one)] + told[int(one)]}
    count = int(servers.at(server, "SELECT count(*) FROM tickets").rows[0][0])
    return {**lacks, **({"tickets": count} if count < before[0] + told[0] else {})}


def counts_of(servers, server):
    """What the rows of the writers come to at a server."""
    rows = servers.at(server, "SELECT id, v FROM accounts WHERE id <= 8").rows
    return {0: int(servers.at(server, "SELECT count(*) FROM tickets").rows[0][0]), **{int(one): int(v) for one, v in rows}}


def killed_trial(servers, pool, expect):
    """The pool is killed under eight writers, again and again: those that are served are equal and lack no change that was acknowledged."""
    started(pool)
    apart, changes, evened = 0, 0, 0
    for number in range(ROUNDS):
        before = counts_of(servers, servers.all[0])
        told = killed_round(pool, 0.4 + 0.05 * number)
        pool.start()
        pool.wait(60)
        nodes, rows = nodes_of(pool), [servers.rows(server) for server in servers.all]
        up = [one for one, status in enumerate(nodes) if status == "up"]
        expect(up and all(rows[one] == rows[up[0]] for one in up), f"backends {nodes} are served, and their rows differ")
        lacks = {one: found for one in up if (found := lacking(servers, servers.all[one], told, before))}
        expect(not lacks, f"backends are {nodes}, and of those that are up some lack {lacks}")
        told_out = [line for line in pool.lines() if "is detached: " in line]
        expect(len(told_out) == 3 - len(up), f"backends are {nodes}, and the lines {pool.lines()}")
        evened += any("is set to" in line for line in pool.lines())
        changes += sum(told.values())
        if len(up) < 3:
            apart += 1
            pool.stop()
            servers.reset()
            pool.start()
            pool.wait(60)
    return f"{ROUNDS} kills, {changes} changes, servers apart {apart} times, next numbers {evened} times"


SHAPE = r"accounts: column v: bigint NOT NULL; wanted is integer NOT NULL"
TRIALS = {"check": check_trial, "start: a row": start_trial("DELETE FROM accounts WHERE id = 7", 1, r"accounts: 99 rows, .*")}
TRIALS |= {"start: a type": start_trial("ALTER TABLE accounts ALTER v TYPE int8", 0, SHAPE)}
TRIALS |= {"start: no table": start_trial("DROP TABLE notes", 2, r"notes: column id: nothing; wanted is integer NOT NULL")}
TRIALS |= {"start: all apart": all_other_trial, "start: none": none_trial, "start: twins": twin_trial}
TRIALS |= {"start: next numbers": numbers_trial, "start: late commit": late_commit_trial, "killed and compared": killed_trial}
