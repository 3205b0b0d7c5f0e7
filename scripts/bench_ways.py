"""Ways to PostgreSQL servers that the benches measure: bare relays, Pgpool-II, servers that are further away; and pgbench."""
import glob
import os
import re
import shutil
import signal
import subprocess
import sys
import time

from postgres import POSTGRES, USER, Skipped, as_user, free_port, install_packages
from serving import DATABASE, SEATS, TOP


def built(folder, name, *libraries):
    """A program in C, built."""
    words = ["cc", "-O2", "-pthread", "-I/usr/include/postgresql", f"{TOP}/scripts/clients/{name}.c", "-o", f"{folder}/{name}"]
    words += libraries
    for installed in (False, True):
        if installed and not install_packages("libpq-dev", "gcc", "libc6-dev"):
            break
        try:
            if subprocess.run(words, stdin=subprocess.DEVNULL, capture_output=True, check=False).returncode == 0:
                os.chmod(folder, 0o755)
                return f"{folder}/{name}"
        except OSError:
            pass
    raise Skipped(f"{name} cannot be built")


class Relay:
    """A bare relay before servers."""

    modes = ("simple",)

    def __init__(self, program, words, ports):
        self.port = free_port()
        self.words = [program, *words, str(self.port), *map(str, ports)]
        self.start()

    def start(self):
        """Starts the relay."""
        self.child = subprocess.Popen(self.words, stdin=subprocess.DEVNULL)

    def again(self):
        """Starts it anew, where clients of it came to no end."""
        self.stop()
        self.start()
        time.sleep(0.3)

    def stop(self):
        """Ends the relay."""
        self.child.terminate()
        self.child.wait()


class Delay:
    """Servers that are further away: each byte comes so many microseconds later, both ways."""

    def __init__(self, program, delay, ports):
        self.ports = [free_port() for _ in ports]
        pairs = [f"{near}:{far}" for near, far in zip(self.ports, ports)]
        self.child = subprocess.Popen([program, str(delay), *pairs], stdin=subprocess.DEVNULL)
        time.sleep(0.3)

    def stop(self):
        """Ends the relay."""
        self.child.terminate()
        self.child.wait()


class Pgpool:
    """Pgpool-II before servers, in the mode that the pool has."""

    modes = ("simple", "extended")

    def __init__(self, folder, ports):
        if not shutil.which("pgpool") and not install_packages("pgpool2"):
            raise Skipped("pgpool2 cannot be installed")
        self.folder, self.port = f"{folder}/pgpool", free_port()
        os.makedirs(self.folder)
        settings = {"backend_clustering_mode": "snapshot_isolation", "listen_addresses": "127.0.0.1", "port": self.port}
        settings |= {"pcp_port": free_port(), "unix_socket_directories": self.folder, "pcp_socket_dir": self.folder}
        settings |= {"socket_dir": self.folder, "pid_file_name": f"{self.folder}/pid", "logdir": self.folder, "work_dir": self.folder}
        settings |= {"num_init_children": SEATS, "max_pool": 1, "load_balance_mode": "on", "enable_pool_hba": "off", "pool_passwd": ""}
        settings |= {"sr_check_period": 0, "health_check_period": 0, "memory_cache_enabled": "off", "log_min_messages": "fatal"}
        for number, port in enumerate(ports):
            settings |= {f"backend_hostname{number}": "127.0.0.1", f"backend_port{number}": port, f"backend_weight{number}": 1}
            settings |= {f"backend_flag{number}": "ALLOW_TO_FAILOVER"}
        with open(f"{self.folder}/pgpool.conf", "w", encoding="utf-8") as file:
            file.writelines(f"{name} = '{value}'\n" for name, value in settings.items())
        self.user = as_user()
        if self.user:
            for name in (self.folder, f"{self.folder}/pgpool.conf"):
                os.chown(name, self.user["user"], self.user["group"])
        self.start()

    def start(self):
        """Starts Pgpool-II, in a group of processes of its own."""
        self.log = open(f"{self.folder}/log", "ab")
        words = [shutil.which("pgpool") or "/usr/sbin/pgpool", "-n", "-D", "-f", f"{self.folder}/pgpool.conf"]
        given = {"cwd": self.folder, "stdin": subprocess.DEVNULL, "stdout": self.log, "stderr": self.log, **self.user}
        self.child = subprocess.Popen(words, start_new_session=True, **given)
        self.wait()

    def again(self):
        """Starts it anew, where clients of it came to no end."""
        self.stop()
        self.start()

    def wait(self):
        """Waits until it answers."""
        words = [f"{POSTGRES}/psql", "-h", "127.0.0.1", "-p", str(self.port), "-U", USER, "-Atc", "SELECT 1", DATABASE]
        for _ in range(60):
            if subprocess.run(words, stdin=subprocess.DEVNULL, capture_output=True, check=False).returncode == 0:
                return
            time.sleep(0.25)
        self.stop()
        with open(f"{self.folder}/log", encoding="utf-8", errors="replace") as file:
            raise Skipped(f"Pgpool-II does not answer: {(file.read().strip().splitlines() or ['it says nothing'])[-1]}")

    def stop(self):
        """Ends Pgpool-II."""
        self.child.terminate()
        try:
            self.child.wait(10)
        except subprocess.TimeoutExpired:
            os.killpg(self.child.pid, signal.SIGKILL)
            self.child.wait()
        self.log.close()


def rate(servers, port, scripts, mode, clients, seconds):
    """What pgbench counts in a second of scripts with their weights, and the times of all transactions in milliseconds, in order."""
    logs = f"{servers.folder}/bench_log"
    for old in glob.glob(f"{logs}.*"):
        os.remove(old)
    words = [f"{POSTGRES}/pgbench", "-h", "127.0.0.1", "-p", str(port), "-U", USER, "-n", "-M", mode, "-c", str(clients)]
    words += ["-j", "2", "-T", str(seconds), "-l", "--log-prefix", logs]
    for number, (text, weight) in enumerate(scripts):
        path = f"{servers.folder}/bench{number}.sql"
        with open(path, "w", encoding="utf-8") as file:
            file.write(f"\\set k random(1, 100)\n{text}\n")
        words += ["-f", f"{path}@{weight}"]
    done = subprocess.run([*words, DATABASE], stdin=subprocess.DEVNULL, capture_output=True, encoding="utf-8", check=False)
    if done.returncode:
        raise Skipped(f"pgbench at port {port} ends with {done.returncode}: {done.stderr.strip()[-400:]}")
    times = []
    for name in glob.glob(f"{logs}.*"):
        with open(name, encoding="utf-8") as file:
            times += [int(parts[2]) / 1000 for parts in map(str.split, file) if parts[2].isdigit()]
    return float(re.search(r"tps = ([0-9.]+)", done.stdout)[1]), sorted(times)


def say(text):
    """A line of figures."""
    print(text, file=sys.stderr, flush=True)
