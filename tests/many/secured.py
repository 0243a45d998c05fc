#!/usr/bin/env python3
"""A cluster as docs/use/many.md sets it up: by the units of examples/many, with certificates that the page's block has made.

secured.py FOLDER CERTIFICATES OTHERS PROGRAM: the last is the page's program, OTHERS has certificates of another authority"""
import os
import re
import shlex
import socket
import subprocess
import sys

TOP = os.path.join(os.path.dirname(os.path.abspath(__file__)), "..", "..")
sys.path.insert(0, os.path.join(TOP, "bindings", "python"))
import numpy
from dask.distributed import Client
from distributed.security import Security

from cases import main, raises
from cluster import Cluster, wait_until
from pen import Pen

FOLDER, CERTIFICATES, OTHERS, PROGRAM = map(os.path.abspath, sys.argv[1:5])
ROW = [("time", "<u8"), ("price", "<f8"), ("size", "<u8")]
CLUSTER = None


class Units(Cluster):
    """Begun by the words of the units, with other folders, addresses and a port that is free."""

    def words_of(self, unit, module, own, **known):
        with open(os.path.join(TOP, "examples", "many", f"cvec-{unit}.service")) as file:
            text = file.read()
        line, = re.findall(r"(?m)^ExecStart=/usr/bin/dask-\w+ (.*)$", text)
        for name, value in known.items():
            line = line.replace("${%s}" % name, value)
        line = line.replace("/etc/cvec/own", os.path.join(CERTIFICATES, own)).replace("/etc/cvec", CERTIFICATES)
        line = line.replace("/run/cvec-worker", os.path.join(self.folder, "dask")).replace(":8786", f":{self.port}")
        assert "${" not in line and "/etc" not in line, line
        self.known.update(re.findall(r"(DASK_\w+)=(\w+)", text))
        return [sys.executable, "-m", f"distributed.cli.dask_{module}", *shlex.split(line)]

    def start_scheduler(self):
        with socket.socket() as free:
            free.bind((self.hosts.head, 0))
            self.port = free.getsockname()[1]
        self.scheduler = self.start(self.words_of("scheduler", "scheduler", "head", HEAD=self.hosts.head), "scheduler", self.folder)
        self.address = f"tls://{self.hosts.head}:{self.port}"

    def start_worker(self, number, known=None):
        words = self.words_of("worker", "worker", f"host{number + 1}", HEAD=self.hosts.head, HOST=self.addresses[number])
        self.workers[number] = self.start([*self.hosts.words(number), *words], f"worker{number}", self.folders[number])


def security(folder):
    return Security(tls_ca_file=os.path.join(folder, "ca.pem"), tls_client_cert=os.path.join(folder, "client.pem"),
                    tls_client_key=os.path.join(folder, "client.key"), require_encryption=True)


def rows_of(number):
    rows = numpy.zeros(1000, ROW)
    rows["time"], rows["price"], rows["size"] = numpy.arange(1000), (numpy.arange(1000) * 7 + number) % 1000 * 0.25, numpy.arange(1000) % 50
    return rows


def the_program_of_the_page_answers():
    for number, folder in enumerate(CLUSTER.folders):
        data, pen = rows_of(number).tobytes(), Pen(os.path.join(folder, "000001.cv"), width=24)
        for first in range(0, len(data), 2400):
            pen.grow([data[it:it + 24] for it in range(first, first + 2400, 24)])
    with open(PROGRAM) as file:
        text = file.read()
    for old, new in [("10.0.0.11", CLUSTER.addresses[0]), ("10.0.0.12", CLUSTER.addresses[1]), ("tls://10.0.0.10:8786", CLUSTER.address),
                     ("/srv/trades/", "")]:
        assert old in text, old
        text = text.replace(old, new)
    done = subprocess.run([sys.executable, "-c", text], cwd=CERTIFICATES, env=CLUSTER.known, capture_output=True, text=True, timeout=120)
    assert done.returncode == 0, done.stderr
    assert done.stdout.split("\n")[:3] == ["2000 40", "[249.75 249.75 249.5 ]", "49000"], done.stdout


def a_client_without_a_certificate_is_refused():
    plain = CLUSTER.address.replace("tls:", "tcp:")
    raises(OSError, lambda: Client(plain, timeout=5, set_as_default=False))


def a_client_with_a_strangers_certificate_is_refused():
    raises(OSError, lambda: Client(CLUSTER.address, security=security(OTHERS), timeout=5, set_as_default=False))


def a_worker_with_a_strangers_certificate_is_refused():
    """It never comes to be one."""
    with Client(CLUSTER.address, security=security(CERTIFICATES), timeout=60, set_as_default=False) as client:
        words = CLUSTER.words_of("worker", "worker", "host1", HEAD=CLUSTER.hosts.head, HOST=CLUSTER.addresses[0])
        words = [it.replace(CERTIFICATES, OTHERS) for it in words]
        child = CLUSTER.start([*CLUSTER.hosts.words(0), *words], "stranger", CLUSTER.folders[0])
        log = os.path.join(CLUSTER.folder, "stranger.log")
        wait_until(lambda: child.poll() is not None or re.search("(?i)certificate|handshake|ssl", open(log).read()), "a refusal")
        assert len(client.scheduler_info()["workers"]) == 2
        child.kill()


if __name__ == "__main__":
    with Units(os.path.join(FOLDER, "cluster")) as CLUSTER:
        with CLUSTER.client(security=security(CERTIFICATES)):
            pass
        main(globals(), [])
