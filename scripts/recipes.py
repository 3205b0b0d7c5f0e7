"""Trials of what the pages tell operators and applications to do: the texts and the commands are read from the pages."""
import os
import re
import shutil
import subprocess

from postgres import POSTGRES, Client, Skipped, install_packages
from serving import DATABASE, TOP, nodes_of

PAGES = f"{TOP}/docs"
PYTHON = "/usr/bin/python3"


def page(name):
    """The text of a page."""
    with open(f"{PAGES}/{name}", encoding="utf-8") as file:
        return file.read()


def block(name, kind, word):
    """The one block of code of this kind on a page that has this word."""
    found = [text for text in re.findall(rf"^```{kind}\n(.*?)^```$", page(name), re.M | re.S) if word in text]
    assert len(found) == 1, f"{name} has {len(found)} blocks of {kind} with {word}"
    return found[0]


class Told(Client):
    """A session that keeps the text of an error."""

    def answer(self):
        self.text = None
        return super().answer()

    def message(self):
        kind, body = super().message()
        if kind == b"E":
            self.text = re.search(rb"\0M([^\0]*)\0", body)[1].decode()
        return kind, body


def refusals(servers, pool, expect):
    """Each statement that CLIENTS.md says is refused is refused with its code and its text, and the session goes on."""
    rows = re.findall(r"^\| `([^`]+)` \| `(\w{5})` `([^`]+)` \|", page("CLIENTS.md"), re.M)
    expect(len(rows) >= 30, f"the page has {len(rows)} rows")
    client = Told(("127.0.0.1", pool.port), DATABASE)
    for text, code, words in rows:
        answer = client.ask(text)
        expect((answer.code, client.text) == (code, words), f"{text} is answered by {answer.code} {client.text}, not {code} {words}")
    expect(client.ask("SELECT count(*) FROM notes").rows == [[b"0"]], "a refused statement has changed something")
    client.close()
    return f"{len(rows)} refusals"


def does(words, **given):
    """Whether a command ends with 0, and what it wrote."""
    pipes = {"stdin": subprocess.DEVNULL, "stdout": subprocess.PIPE, "stderr": subprocess.STDOUT, "encoding": "utf-8", "timeout": 120}
    try:
        done = subprocess.run(words, check=False, **pipes, **given)
    except OSError as why:
        return False, str(why)
    return done.returncode == 0, done.stdout


def want(words, *packages):
    """Skips the trial where this command fails, and Debian's packages cannot be installed or do not mend it."""
    if not does(words)[0] and not (install_packages(*packages) and does(words)[0]):
        raise Skipped(f"{' '.join(packages)} is not there, and could not be installed")


# What the drivers of Python do, behind the lines of the page
NUMBERS = """
row = connection.execute("SELECT id, v FROM accounts WHERE id = %s", (7,)).fetchone()
made = connection.execute("INSERT INTO notes (id, body, made) VALUES (%s, %s, now())", (1, "o'ne")).rowcount
connection.commit()
with connection.transaction():
    changed = [connection.execute("UPDATE accounts SET v = v + %s WHERE id = %s", (0, key)).rowcount for key in range(1, 9)]
print(row, made, sum(changed))
"""
MOMENTS = """
cursor = connection.cursor()
moment = datetime.datetime(2026, 12, 1, 9, 30, tzinfo=datetime.timezone.utc)
cursor.execute("INSERT INTO notes (id, made) VALUES (%s, %s)", (1, moment))
cursor.execute("SELECT id FROM notes WHERE made = %s", (moment,))
connection.commit()
print(cursor.fetchall())
"""
PERL = """
use DBI; my $d = DBI->connect("dbi:Pg:host=127.0.0.1;port=$ARGV[0];dbname=pool", "pool", "", {RaiseError => 1});
$d->do("INSERT INTO notes (id, body) VALUES (?, ?)", undef, 1, "o'ne"); $d->begin_work;
my $s = $d->prepare("SELECT v FROM accounts WHERE id = ?"); my @all = map { $s->execute($_); $s->fetchrow_array } 1 .. 3;
$d->do("UPDATE accounts SET v = v + ? WHERE id = ?", undef, 0, 1); $d->commit;
print "@all ", $d->ping, " ", $d->selectrow_array("SELECT body FROM notes WHERE id = ?", undef, 1), "\\n";
"""
PHP = """
$c = pg_connect("host=127.0.0.1 port=$argv[1] dbname=pool user=pool");
pg_query_params($c, 'INSERT INTO notes (id, body) VALUES ($1, $2)', [1, "o'ne"]);
$d = new PDO("pgsql:host=127.0.0.1;port=$argv[1];dbname=pool", "pool", "", [PDO::ATTR_ERRMODE => PDO::ERRMODE_EXCEPTION]);
$s = $d->prepare("SELECT body FROM notes WHERE id = ?"); $s->execute([1]); $body = $s->fetchColumn();
$d->beginTransaction(); $d->exec("UPDATE accounts SET v = v WHERE id = 1"); $d->commit();
echo $body, " ", pg_fetch_row(pg_query($c, "SELECT count(*) FROM notes"))[0], "\\n";
"""


def says(words, wanted, expect):
    """A program writes this as its last line on standard output."""
    done = subprocess.run(words, check=False, stdin=subprocess.DEVNULL, capture_output=True, encoding="utf-8", cwd="/", timeout=120)
    said = done.stdout.strip().splitlines()[-1:]
    expect(said == [wanted], f"it writes {done.stdout} {done.stderr[-600:]}, not {wanted}")


def by_python(module, package, word, behind, wanted):
    """The trial of a driver of Python, with the lines of the page."""

    def trial(servers, pool, expect):
        want([PYTHON, "-c", f"import {module}"], package)
        given = f"host='127.0.0.1', port={pool.port}, user='pool', dbname='{DATABASE}'"
        text = f"import {module}\nconnection = {module}.connect({given})\n{block('CLIENTS.md', 'python', word)}{behind}"
        says([PYTHON, "-c", text], wanted, expect)

    return trial


def dbd_pg(servers, pool, expect):
    """Perl's DBD::Pg: it is refused its DEALLOCATE, and goes on."""
    want(["perl", "-MDBD::Pg", "-e", "1"], "libdbd-pg-perl")
    says(["perl", "-e", PERL, str(pool.port)], "0 0 0 1 o'ne", expect)


def php(servers, pool, expect):
    """PHP's pgsql and PDO."""
    want(["php", "-r", "exit(function_exists('pg_connect') && class_exists('PDO') ? 0 : 1);"], "php-cli", "php-pgsql")
    says(["php", "-r", PHP, "--", str(pool.port)], "o'ne 1", expect)


# For operators


def commands(servers, pool, expect, word, **given):
    """Runs the block of SERVE.md that has this word, with the servers and files of the trial in place of those of the page."""
    text = block("SERVE.md", "sh", word)
    first, second = (f"-h 127.0.0.1 -p {server.port} -U pool" for server in servers.all[:2])
    own = {"-h 10.0.0.1 -U postgres": first, "-h 10.0.0.2 -U postgres": second, "shop": DATABASE, "PGUSER=app": "PGUSER=pool"}
    own |= {"TABLE.., ..": "accounts, notes, tickets", "CONFIG": f"{pool.folder}/config", "SCHEMA": f"{pool.folder}/schema"}
    for name, value in {**own, **given}.items():
        text = text.replace(name, value)
    words = " ".join(pool.words)
    text = text.replace("./pool ", f"{words} ")
    fine, told = does(["bash", "-euo", "pipefail", "-c", text], env={**os.environ, "PATH": f"{POSTGRES}:{os.environ['PATH']}"})
    expect(fine, f"the commands say {told}\n{text}")
    return told


def got_back(servers, pool, expect):
    """A server was lost, and is behind: by the commands of the page it has all rows again, and is used."""
    servers.all[1].stop()
    client = pool.connect()
    for text in ("UPDATE accounts SET v = v + 1 WHERE id = 60", "INSERT INTO tickets (name) VALUES ('a')"):
        expect(client.ask(text).code is None, f"{text} is refused")
    client.close()
    servers.all[1].start()
    servers.all[1].connect().close()
    pool.stop()
    told = commands(servers, pool, expect, "pg_dump")
    expect("3 backends are equal" in told, f"the commands say {told}")
    pool.start()
    pool.wait()
    expect(nodes_of(pool) == ["up"] * 3, f"the backends are {nodes_of(pool)}")
    client = pool.connect()
    expect(client.ask("INSERT INTO tickets (name) VALUES ('b')").tag == "INSERT 0 1", "the next number is not taken")
    client.close()
    return None


def tables_changed(servers, pool, expect):
    """A table more: the pool stops, each server and the schema file get it, and the pool serves it."""
    new = "CREATE TABLE places (id int4 PRIMARY KEY, name text);"
    pool.stop()
    for server in servers.all:
        expect(servers.at(server, f"DROP TABLE IF EXISTS places; {new}").code is None, "the table cannot be made")
    with open(f"{pool.folder}/schema", "a", encoding="utf-8") as file:
        file.write(f"{new}\n")
    pool.start()
    pool.wait()
    client = pool.connect()
    told = [client.ask(text).tag for text in ("INSERT INTO places (id) VALUES (1)", "SELECT id FROM places")]
    expect(told == ["INSERT 0 1", "SELECT 1"], f"the statements are answered by {told}")
    client.close()
    rows = [servers.at(server, "SELECT id FROM places").rows for server in servers.all]
    expect(rows == [[[b"1"]]] * 3, f"the servers have {rows}")
    for server in servers.all:
        servers.at(server, "DROP TABLE places")


def upgraded(servers, pool, expect):
    """The program and the servers are replaced: the pool stops, the servers start anew, another file of the program serves."""
    client = pool.connect()
    expect(client.ask("UPDATE accounts SET v = v + 1 WHERE id = 1").tag == "UPDATE 1", "the update is refused")
    pool.child.terminate()
    expect(pool.child.wait(20) == 0, "the pool does not stop with status 0")
    for server in servers.all:
        server.stop()
        server.start()
    other = shutil.copy(pool.words[-1], f"{servers.folder}/pool.new") if os.path.dirname(pool.words[-1]) != TOP else pool.words[-1]
    pool.words = [*pool.words[:-1], other]
    pool.start()
    pool.wait(60)
    expect(nodes_of(pool) == ["up"] * 3, f"the backends are {nodes_of(pool)}")
    client = pool.connect()
    expect(client.ask("SELECT v FROM accounts WHERE id = 1").rows == [[b"1"]], "the update is not there")
    client.close()


def whole_file(servers, pool, expect):
    """The whole configuration of MIGRATE.md starts a pool."""
    text = block("MIGRATE.md", "text", "backend_hostname1")
    own = {"'10.0.0.1'\nbackend_port0 = 5432": 0, "'10.0.0.2'\nbackend_port1 = 5432": 1}
    for place, number in own.items():
        text = text.replace(place, f"'127.0.0.1'\nbackend_port{number} = {servers.all[number].port}")
    pool.stop()
    with open(f"{pool.folder}/config", "w", encoding="utf-8") as file:
        file.write(text.replace("'*'", "'127.0.0.1'").replace("port = 9999", f"port = {pool.port}"))
    os.remove(pool.status_path)
    pool.start()
    pool.wait()
    expect(nodes_of(pool) == ["up"] * 2, f"the backends are {nodes_of(pool)}")
    client = pool.connect()
    expect(client.ask("SELECT count(*) FROM accounts").rows == [[b"100"]], "the pool does not serve")
    client.close()


def names_of(heading):
    """The parameters in the first column of a section of MIGRATE.md."""
    section = page("MIGRATE.md").split(f"## {heading}")[1].split("\n## ")[0]
    rows = [line.split("|")[1] for line in section.splitlines() if line.startswith("| `")]
    return [name for row in rows for name in re.findall(r"`([A-Za-z_0-9]{2,})`", row) if not name.endswith("_")]


def pgpool_names(servers, pool, expect):
    """The parameters that MIGRATE.md calls taken are known, and each of the others is told with its line."""
    taken = names_of("Taken")
    others = names_of("To be dropped") + names_of("What others would need")
    expect(len(taken) >= 15 and len(others) >= 100, f"the page has {len(taken)} and {len(others)} names")
    with open(f"{pool.folder}/faulty", "w", encoding="utf-8") as file:
        file.write("".join(f"{name} = 'x y'\n" for name in taken + others))
    words = [*pool.words, "serve", f"{pool.folder}/faulty", f"{pool.folder}/schema"]
    done = subprocess.run(words, check=False, stdin=subprocess.DEVNULL, capture_output=True, encoding="utf-8", timeout=60)
    expect(done.returncode == 2, f"it ends with {done.returncode}: {done.stderr}")
    unknown = re.findall(r"line \d+: (\S+): there is no such parameter; drop the line", done.stderr)
    expect(unknown == others, f"these are unknown: {sorted(set(unknown) ^ set(others))}")
    return f"{len(taken)} taken, {len(others)} others"


TRIALS = {"refusals of the page": refusals, "DBD::Pg": dbd_pg, "PHP": php}
TRIALS |= {"psycopg 3": by_python("psycopg", "python3-psycopg", "Int8Dumper", NUMBERS, "(7, 0) 1 8")}
TRIALS |= {"psycopg2 moments": by_python("psycopg2", "python3-psycopg2", "AsIs", MOMENTS, "[(1,)]")}
TRIALS |= {"got back": got_back, "tables changed": tables_changed, "upgraded": upgraded}
TRIALS |= {"a whole file": whole_file, "names of Pgpool-II": pgpool_names}
