"""A cluster of Dask for tests: a scheduler, and a worker on each of some hosts. Hosts are network namespaces, which root may make, or
addresses 127.0.0.N. They share the machine's disk, so each host's worker works in a folder of its own, by relative paths.

MANY_HOSTS=addresses has addresses also where namespaces could be made."""
import ctypes
import json
import os
import shutil
import signal
import subprocess
import sys
import time

HERE = os.path.dirname(os.path.abspath(__file__))
MODULES = os.path.join(HERE, "..", "..", "bindings", "python")
PATIENCE = 60


# What has been begun ends, and the namespaces go, also where a test is stopped.
for number in signal.SIGTERM, signal.SIGHUP:
    signal.signal(number, lambda *_: sys.exit(1))


def wait_until(is_so, what, seconds=PATIENCE):
    until = time.monotonic() + seconds
    while not is_so():
        assert time.monotonic() < until, f"not in {seconds} s: {what}"
        time.sleep(0.02)


def die_with_this():
    ctypes.CDLL(None).prctl(1, signal.SIGKILL)


def call(*words):
    return subprocess.run(words, stdout=subprocess.DEVNULL, stderr=subprocess.DEVNULL).returncode == 0


class Addresses:
    """Hosts of one machine that differ in their address alone. What cuts one off stops its processes."""

    head = "127.0.0.1"

    def __init__(self, count):
        self.addresses = [f"127.0.0.{number + 2}" for number in range(count)]

    def words(self, _):
        return []

    def cut(self, _, group):
        os.killpg(group, signal.SIGSTOP)

    def mend(self, _, group):
        os.killpg(group, signal.SIGCONT)

    def end(self):
        pass


class Namespaces:
    """Hosts with networks of their own, joined by a bridge."""

    def __init__(self, count):
        own = os.getpid()
        self.net, self.bridge = f"10.{200 + own % 50}.{own // 50 % 250}", f"cvbr{own}"
        self.names = [f"cv{own}h{it}" for it in range(count)]
        self.head, self.addresses = f"{self.net}.1", [f"{self.net}.{11 + it}" for it in range(count)]
        steps = [f"link add {self.bridge} type bridge", f"addr add {self.head}/24 dev {self.bridge}", f"link set {self.bridge} up"]
        for number, name in enumerate(self.names):
            steps += [f"netns add {name}", f"link add {self.link(number)} type veth peer name eth0 netns {name}",
                      f"link set {self.link(number)} master {self.bridge} up", f"-n {name} link set lo up",
                      f"-n {name} addr add {self.addresses[number]}/24 dev eth0", f"-n {name} link set eth0 up"]
        if not all(call("ip", *it.split()) for it in steps):
            self.end()
            raise OSError("no namespaces")

    def link(self, number):
        return f"cv{os.getpid()}v{number}"

    def words(self, number):
        return ["ip", "netns", "exec", self.names[number]]

    def cut(self, number, _):
        assert call("ip", "link", "set", self.link(number), "down")

    def mend(self, number, _):
        assert call("ip", "link", "set", self.link(number), "up")

    def end(self):
        for name in self.names:
            call("ip", "netns", "del", name)
        call("ip", "link", "del", self.bridge)


def hosts(count):
    if os.environ.get("MANY_HOSTS") != "addresses" and os.geteuid() == 0 and shutil.which("ip"):
        try:
            return Namespaces(count)
        except OSError:
            pass
    return Addresses(count)


class Cluster:
    """`addresses` has those of the hosts, `folders` their folders. `known` is further in the environment of all processes."""

    def __init__(self, folder, count=2, known=None):
        self.folder, self.hosts = folder, hosts(count)
        self.addresses, self.children = self.hosts.addresses, []
        self.folders = [os.path.join(folder, f"h{it}") for it in range(count)]
        for it in self.folders:
            os.makedirs(it, exist_ok=True)
        self.known = {**os.environ, "PYTHONPATH": f"{MODULES}:{HERE}", "PYTHONDONTWRITEBYTECODE": "1", "OMP_NUM_THREADS": "1",
                      **(known or {})}
        self.scheduler, self.workers = None, {}

    def __enter__(self):
        try:
            self.start_scheduler()
            for number in range(len(self.addresses)):
                self.start_worker(number)
            return self
        except BaseException:
            self.end()
            raise

    def __exit__(self, *_):
        self.end()

    def start(self, words, name, folder, known=None):
        with open(os.path.join(self.folder, f"{name}.log"), "a") as log:
            child = subprocess.Popen(words, cwd=folder, env={**self.known, **(known or {})}, stdin=subprocess.DEVNULL, stdout=log, stderr=log,
                                     start_new_session=True, preexec_fn=die_with_this)
        self.children.append(child)
        return child

    def start_scheduler(self):
        note = os.path.join(self.folder, "scheduler.json")
        if os.path.exists(note):
            os.unlink(note)
        words = [sys.executable, "-m", "distributed.cli.dask_scheduler", "--host", f"tcp://{self.hosts.head}:0", "--no-dashboard",
                 "--scheduler-file", note]
        self.scheduler = self.start(words, "scheduler", self.folder)
        wait_until(lambda: os.path.exists(note) or self.scheduler.poll() is not None, "a scheduler")
        with open(note) as file:
            self.address = json.load(file)["address"]

    def start_worker(self, number, known=None):
        words = [*self.hosts.words(number), sys.executable, "-m", "distributed.cli.dask_worker", self.address, "--host",
                 self.addresses[number], "--nthreads", "1", "--memory-limit", "0", "--no-dashboard", "--local-directory",
                 os.path.join(self.folder, "dask")]
        self.workers[number] = self.start(words, f"worker{number}", self.folders[number], known)

    def client(self, **options):
        """One that sees all workers that were begun."""
        from dask.distributed import Client
        client = Client(self.address, timeout=PATIENCE, set_as_default=False, **options)
        client.wait_for_workers(len(self.workers), timeout=PATIENCE)
        return client

    def worker_process(self, client, number):
        """The process that does tasks. It is begun again where it is killed."""
        return next(pid for address, pid in client.run(os.getpid).items() if f"//{self.addresses[number]}:" in address)

    def kill_worker(self, number):
        """The host has none then."""
        os.killpg(self.workers[number].pid, signal.SIGKILL)
        self.workers.pop(number).wait()

    def kill_scheduler(self):
        self.scheduler.kill()
        self.scheduler.wait()

    def cut(self, number):
        self.hosts.cut(number, self.workers[number].pid)

    def mend(self, number):
        self.hosts.mend(number, self.workers[number].pid)

    def end(self):
        for child in self.children:
            try:
                os.killpg(child.pid, signal.SIGKILL)
            except ProcessLookupError:
                pass
            child.wait()
        self.hosts.end()
