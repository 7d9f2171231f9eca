"""flowlabel-record, to which the tests send messages over the loopback interface.

Each File must have whole messages, begin with the templates in force, and have the sequence numbers of the exporter, so
that flowlabel-audit finds what is missing between two Files. Two exporters with the same template ID have Files of their
own. What is no IPFIX message must be in no File, and be reported. A signal, a full disk and a closed pipe must leave
whole Files only, and no file may be replaced.
"""

import contextlib
import os
import re
import signal
import socket
import struct
import subprocess
import sys
import time

from support import PROGRAM, ROOT, Case, closed_pipe, command, exporters, inside, needs, read, read_bytes, rows, run
from support import write
from support.ipfix import FOUR, SUMS, message, sets, template
from support.processes import PATIENCE, wait

RECORD = command("record")
TEMPLATE = template(256, *FOUR, *SUMS)
FLOW = sets(256, bytes.fromhex("0a000001 08080808 00000003 000000b4"))
BEGIN = message(TEMPLATE, FLOW)


def flow(number, *parts):
    """Returns a message with one flow record, and its number."""
    return message(*parts, FLOW, number=number)


class Recorded(Case):
    """Cases with a recorder, which writes Files to a folder."""

    @contextlib.contextmanager
    def recorder(self, *options, folder="files", address="127.0.0.1", before=(), **streams):
        """Starts the recorder, and yields it with a socket that sends to it. It ends with the block."""
        os.makedirs(folder, exist_ok=True)
        words = [*before, RECORD, *options, address, "0", folder]
        streams = {"stdout": subprocess.PIPE, **streams}
        with subprocess.Popen(words, stdin=subprocess.DEVNULL, stderr=subprocess.PIPE, **streams) as process:
            try:
                process.port = int(re.search(rb" port (\d+)", process.stderr.readline())[1])
                with socket.socket(socket.AF_INET, socket.SOCK_DGRAM) as sender:
                    sender.connect(("127.0.0.1", process.port))
                    yield process, sender
            finally:
                with contextlib.suppress(ProcessLookupError):
                    process.kill()

    def send(self, process, sender, messages):
        """Sends messages, of which none is lost: the recorder reads those in its buffer before this is full."""
        size = 0
        for one in messages:
            # A small message takes 768 bytes. A buffer of the default size has room for 425,984 bytes.
            size += max(len(one), 1000)
            if size > 100_000:
                wait(lambda: exporters.queued(process.port) == 0)
                size = len(one)
            sender.send(one)

    def end(self, process, number=signal.SIGTERM):
        """Ends the recorder by a signal, and returns its status, the names that it printed, and its lines."""
        wait(lambda: exporters.queued(process.port) in (0, None))
        process.send_signal(number)
        output, error = process.communicate(timeout=PATIENCE)
        return process.returncode, (output or b"").decode().splitlines(), error.decode().splitlines()

    def counts(self, *names):
        """Returns what `info` counts in joined Files."""
        text = b"".join(map(read_bytes, names))
        found = run(PROGRAM, "info", "/dev/stdin", input=text)
        self.assertEqual((found.returncode, found.stderr), (0, b""))
        return {what: int(number) for what, number in map(str.split, found.stdout.decode().splitlines())}


class Files(Recorded):
    """What is in the Files."""

    @rows((signal.SIGTERM,), (signal.SIGINT,), (signal.SIGHUP,))
    def test_signal(self, number):
        with self.recorder(folder=str(number)) as (process, sender):
            messages = [BEGIN, *map(flow, range(1, 500))]
            self.send(process, sender, messages)
            status, names, error = self.end(process, number)
            port = sender.getsockname()[1]
        self.assertEqual((status, error), (0, []))
        self.assertEqual(os.listdir(str(number)), [os.path.basename(name) for name in names])
        self.assertRegex(names[0], rf"\A{number:d}/\d{{8}}T\d{{6}}Z-127\.0\.0\.1-{port}\.ipfix\Z")
        self.assertEqual(read_bytes(names[0]), b"".join(messages))

    def test_nothing(self):
        with self.recorder(folder="nothing") as (process, _):
            self.assertEqual(self.end(process), (0, [], []))
        self.assertEqual(os.listdir("nothing"), [])

    def test_an_interval(self):
        other = template(257, (8, 4), scopes=1)
        withdrawal = sets(2, struct.pack(">HH", 300, 0))
        with self.recorder("--every", "1", folder="interval") as (process, sender):
            sender.send(flow(0, TEMPLATE, other, template(300, *FOUR), template(301, *FOUR), withdrawal))
            sender.send(flow(1))
            first = process.stdout.readline().decode().strip()
            # A message of another domain, and two whose templates are in the first File only.
            sender.send(message(TEMPLATE, FLOW, domain=9))
            for number in range(12, 17):
                sender.send(flow(number))
            status, names, error = self.end(process)
        self.assertEqual((status, error), (0, []))
        for name in names:
            self.assertEqual(self.counts(name)["skipped-sets"], 0)
        self.assertEqual(self.counts(first, *names)["records"], 8)
        # The three templates in force come with a first message, which keeps its number.
        text = b"".join(map(read_bytes, names))
        begins = [flow(number, TEMPLATE, other, template(301, *FOUR)) in text for number in range(17)]
        self.assertTrue(any(begins), text)
        # 10 records were lost between two Files.
        status, output, _ = inside.texts("audit", write("joined", read_bytes(first) + text))
        self.assertEqual(status, 1)
        self.assertIn("10 records of the domain 1 are missing: 10 before the message ", output)

    def test_two_exporters(self):
        other = socket.socket(socket.AF_INET, socket.SOCK_DGRAM)
        with other, self.recorder(folder="two") as (process, sender):
            other.connect(("127.0.0.1", process.port))
            sender.send(BEGIN)
            other.send(message(template(256, *SUMS, *FOUR), FLOW))
            sender.send(flow(1))
            status, names, _ = self.end(process)
        self.assertEqual((status, sorted(self.counts(name)["records"] for name in names)), (0, [1, 2]))

    def test_many_templates(self):
        big = [template(256 + number, *FOUR, (210, number), *[(210, 1)] * 2000) for number in range(20)]
        with self.recorder("--every", "1", folder="big") as (process, sender):
            self.send(process, sender, [*map(message, big), BEGIN])
            process.stdout.readline()
            sender.send(flow(1))
            status, names, error = self.end(process)
        self.assertEqual((status, error), (0, []))
        self.assertEqual(self.counts(names[-1])["skipped-sets"], 0)
        self.assertGreater(os.path.getsize(names[-1]), 1 << 16)

    def test_a_flood(self):
        """Nothing is kept of ever more domains without templates."""
        def memory():
            wait(lambda: exporters.queued(process.port) == 0)
            return int(re.search(r"(?m)^VmRSS:\s+(\d+) kB$", read(f"/proc/{process.pid}/status"))[1])
        with self.recorder(folder="flood") as (process, sender):
            sender.send(BEGIN)
            before = memory()
            withdrawal = sets(2, struct.pack(">HH", 300, 0))
            self.send(process, sender, (message(*parts, domain=number) for number in range(10_000)
                                        for parts in ((withdrawal,), ())))
            # A table or a set of the domains would need more than 800 kB.
            self.assertLess(memory() - before, 400, "kB")
            self.assertEqual(self.end(process)[::2], (0, []))

    @rows(("large ones of a domain", 40, 14000), ("small ones of many domains", 2600, 0))
    def test_too_many_templates(self, name, count, fields):
        """Not all of ever more templates are kept: they may take about 1 MB of memory."""
        with self.recorder(folder=name) as (process, sender):
            sender.send(BEGIN)
            self.send(process, sender, (message(template(300 + number, *FOUR, *[(210, 1)] * fields),
                                                domain=1 if fields else number) for number in range(count)))
            sender.send(flow(1))
            status, names, error = self.end(process)
        self.assertEqual((status, self.counts(*names)["records"], len(error)), (1, 2, 1))
        self.assertIn(" messages are in no File. Each has too many templates.", error[0])

    def test_no_file_is_replaced(self):
        with self.recorder(folder="taken") as (process, sender):
            sender.send(BEGIN)
            wait(lambda: os.listdir("taken"))
            name = os.listdir("taken")[0].removeprefix(".").removesuffix(".part")
            write(f"taken/{name}", "another")
            status, names, _ = self.end(process)
        self.assertEqual((status, names), (0, [f"taken/{name.removesuffix('.ipfix')}-2.ipfix"]))
        self.assertEqual((read(f"taken/{name}"), len(os.listdir("taken"))), ("another", 2))

    @needs("softflowd")
    def test_softflowd(self):
        run(ROOT / "examples/packets", "1000", "capture.pcap", check=True)
        with self.recorder(folder="softflowd") as (process, _):
            run(*exporters.softflowd("-v", "10", "-A", "milli")(process.port), check=True)
            status, names, error = self.end(process)
        self.assertEqual((status, error, self.counts(*names)["records"]), (0, [], 1000))
        self.assertEqual(inside.texts("audit", *names)[0], 0)


class Faults(Recorded):
    """Messages that are in no File, and what can't be written."""

    @rows(("is NetFlow of version 9", struct.pack(">HH", 9, 1) + bytes(16)), ("isn't IPFIX", b"GET / HTTP/1.1"),
          ("isn't IPFIX", b""), ("is malformed", BEGIN[:-1]), ("is malformed", BEGIN + b"x"),
          ("is malformed", message(b"\1\0\0")), ("is malformed", message(struct.pack(">HH", 256, 3))),
          ("is malformed", message(struct.pack(">HH", 256, 9))),
          ("is malformed", message(sets(2, struct.pack(">HHH", 256, 1, 8)))),
          ("is malformed", message(sets(2, bytes(4)))),
          ("is malformed", message(sets(3, struct.pack(">HHHHH", 256, 1, 2, 8, 4)))))
    def test_left_out(self, why, data):
        folder = f"left{len(os.listdir())}"
        with self.recorder(folder=folder) as (process, sender):
            sender.send(BEGIN)
            sender.send(data)
            sender.send(flow(1))
            status, names, error = self.end(process)
        self.assertEqual((status, error), (1, [
            f"flowlabel-record: 1 messages are in no File. Each {why}. The first is from 127.0.0.1"]))
        self.assertEqual(read_bytes(names[0]), BEGIN + flow(1))

    @rows(("127.0.0.1", "127.0.0.1", 1), ("192.0.2.1", "127.0.0.1", 0), ("127.0.0.1", "::", 1), ("127.0.0.2", "::", 0))
    def test_from(self, exporter, address, count):
        folder = f"from {exporter} to {address}"
        with self.recorder("--from", exporter, "--from", "::1", folder=folder, address=address) as (process, sender):
            sender.send(BEGIN)
            wait(lambda: address != "::" or os.listdir(folder) or not count)
            status, names, error = self.end(process)
        self.assertEqual((status, len(names), len(error)), (0, count, 1 - count))
        self.assertEqual([name for name in names if "Z-127.0.0.1-" not in name], [])

    def test_a_closed_pipe(self):
        with closed_pipe() as pipe, self.recorder(folder="pipe", stdout=pipe) as (process, sender):
            sender.send(BEGIN)
            self.assertEqual(self.end(process)[0], -signal.SIGPIPE)
        self.assertEqual([self.counts(f"pipe/{name}")["records"] for name in os.listdir("pipe")], [1])

    def test_no_links(self):
        # The call link doesn't exist for this run, as on some file systems.
        write("hook/start.py", "import os, runpy, sys\ndef link(*_):\n    os.mkdir('hook/called')\n"
              "    raise PermissionError(1, 'none')\nos.link = link\nsys.argv = sys.argv[1:]\n"
              "runpy.run_path(sys.argv[0], run_name='__main__')\n")
        with self.recorder(folder="unlinked", before=(sys.executable, "hook/start.py")) as (process, sender):
            sender.send(BEGIN)
            status, names, error = self.end(process)
        self.assertEqual((status, os.listdir("unlinked"), error), (0, [os.path.basename(names[0])], []))
        self.assertIn("called", os.listdir("hook"))

    def test_a_full_buffer(self):
        with self.recorder(folder="full") as (process, sender):
            sender.send(BEGIN)
            wait(lambda: os.listdir("full"))
            process.send_signal(signal.SIGSTOP)
            data = message(sets(2, b""), sets(999, bytes(60000)))
            for _ in range(4000):
                sender.send(data)
            process.send_signal(signal.SIGCONT)
            status, names, error = self.end(process)
        self.assertEqual((status, len(error), self.counts(*names)["records"]), (1, 1, 1))
        self.assertRegex(error[0], r"\Aflowlabel-record: \d+ messages were lost, since the buffer was full\Z")

    def test_a_full_disk(self):
        with self.recorder(folder="disk", before=("sh", "-c", 'ulimit -f 1; exec "$0" "$@"')) as (process, sender):
            with contextlib.suppress(ConnectionRefusedError):
                for number in range(100):
                    sender.send(flow(number, TEMPLATE))
                    time.sleep(0.001)
            process.wait(PATIENCE)
            self.assertEqual(process.returncode, 4)
            self.assertRegex(process.stderr.read(), rb"\Aflowlabel-record: disk/\..*\.part: File too large\n\Z")
            names = process.stdout.read().decode().splitlines()
        self.assertEqual(os.listdir("disk"), [os.path.basename(names[0])])
        self.assertEqual(self.counts(*names)["records"], os.path.getsize(names[0]) // len(BEGIN))

    @rows(("127.0.0.1 70000 .",), ("localhost 4739 .",), ("--every 0 ::1 4739 .",), ("--from x ::1 4739 .",),
          ("::1 4739",))
    def test_usage(self, words):
        status, output, error = inside.texts("record", *words.split())
        self.assertEqual((status, output, error.count("\n")), (2, "", 1))

    @rows(("127.0.0.1 0 missing", "missing: no folder", 1), ("192.0.2.1 0 .", "Cannot assign requested address", 4))
    def test_refused(self, words, why, wanted):
        status, output, error = inside.texts("record", *words.split())
        self.assertEqual((status, output, error), (wanted, "", f"flowlabel-record: {why}\n"))
