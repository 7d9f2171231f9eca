"""A cluster of Dask: a scheduler and a worker on the loopback interface, with TLS and certificates of their own. Its
programs are those of Debian's python3-distributed.

The tests of a class share a cluster in a network namespace of their own (support.namespaces), where its port is free:

    @needs(*cluster.NEEDED)
    class Cluster(Isolated):
        spaces = cluster.SPACES

        @classmethod
        def prepare(cls):
            cluster.start(cls)

A client needs `VARIABLES` in its environment, and the working folder of the tests. Without them it is refused.
"""

import os
import subprocess

from support import run
from support.exporters import BOUND, QUIET

NEEDED = ("dask-scheduler", "dask-worker", "openssl")
# A worker looks itself up in /proc, so the namespace of processes is that of the machine.
SPACES = ("mnt", "net")
PORT = "8786"
ADDRESS = f"tls://127.0.0.1:{PORT}"
# How Dask is told its certificates. The scheduler, the worker and clients have the same one.
VARIABLES = {f"DASK_DISTRIBUTED__COMM__{name}": value for name, value in (
    ("REQUIRE_ENCRYPTION", "true"), ("TLS__CA_FILE", "ca.pem"),
    *((f"TLS__{who}__{what}", f"one.{end}") for who in ("SCHEDULER", "WORKER", "CLIENT")
      for what, end in (("CERT", "pem"), ("KEY", "key"))))}
# The variables of a client that trusts no certificate.
WITHOUT_AUTHORITY = {**VARIABLES, "DASK_DISTRIBUTED__COMM__TLS__CA_FILE": ""}


def make_certificates():
    """Makes an authority, ca.pem, and a certificate that it has signed, one.pem, in the working folder."""
    for line in ("req -x509 -newkey rsa:2048 -nodes -keyout ca.key -out ca.pem -subj /CN=ca",
                 "req -newkey rsa:2048 -nodes -keyout one.key -out one.csr -subj /CN=one",
                 "x509 -req -in one.csr -CA ca.pem -CAkey ca.key -CAcreateserial -out one.pem"):
        run("openssl", *line.split(), check=True)


def start(case):
    """Starts a scheduler and a worker, which end with a class of tests. A client waits until they are ready."""
    make_certificates()
    for words in (("dask-scheduler", "--host", "tls://127.0.0.1", "--port", PORT, "--no-dashboard"),
                  ("dask-worker", ADDRESS, "--host", "127.0.0.1", "--no-nanny", "--no-dashboard")):
        process = subprocess.Popen([*BOUND, *words], env={**os.environ, **VARIABLES}, **QUIET)
        case.addClassCleanup(process.wait)
        case.addClassCleanup(process.kill)
