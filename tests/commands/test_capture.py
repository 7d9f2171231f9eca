"""flowlabel-capture with a stand-in for softflowd, and with the real one.

The stand-in sends fewer records than it reports, fails, or sends nothing. The real softflowd reads a capture of 38,000
flows ten times, and the File must have all its records each time.
"""

import os
import pathlib

from support import ROOT, Case, command, inside, needs, read, rows, run, stand_in, texts, write
from support.changes import planting
from support.ipfix import message, sets

SAMPLE = ROOT / "examples/softflowd-milli.ipfix"
FLOWS = 38_000
# Sends the bytes of a file, prints a text and ends with a status, all given by its environment. Before this a stranger,
# which is another process, may connect, and send the file STRANGE. It closes its connection, or keeps it. The command
# may sleep until both have ended. Otherwise the stand-in waits until the command has read all.
STAND_IN = """#!/bin/sh
exec python3 - "$@" <<'END'
import os, signal, socket, sys, time
host, _, port = sys.argv[sys.argv.index("-n") + 1].rpartition(":")
how, command = os.environ.get("HOW", ""), os.getppid()

def send(name):
    connection = socket.create_connection((host, int(port)))
    with open(name, "rb") as file:
        connection.sendall(file.read())
    return connection

if "sleeps" in how:
    os.kill(command, signal.SIGSTOP)
    if os.fork() == 0:
        while os.getppid() != 1 and os.path.exists(f"/proc/{os.getppid()}/fd/0"):
            time.sleep(0.01)
        os.kill(command, signal.SIGCONT)
        os._exit(0)
if "stranger" in how:
    reading, writing = os.pipe()
    if os.fork() == 0:
        connection = send(os.environ["STRANGE"])
        if "keeps" not in how:
            connection.close()
        os.write(writing, b".")
        while "keeps" in how and os.path.exists("keeps"):
            time.sleep(0.01)
        os._exit(0)
    os.read(reading, 1)
if os.environ["SENDS"]:
    connection = send(os.environ["SENDS"])
    connection.shutdown(socket.SHUT_WR)
    if how and "sleeps" not in how:
        connection.recv(1)
    connection.close()
print(os.environ["SAYS"])
sys.exit(int(os.environ["ENDS"]))
END
"""
EXPORTED = "Flows exported: {0} ({0} records) in 10 packets ({1} failures)"


class StandIn(Case):
    """A stand-in for softflowd."""

    @classmethod
    def prepare(cls):
        cls.path = stand_in("softflowd", STAND_IN)
        sample = SAMPLE.read_bytes()
        write("cut", sample[:5000])
        # A message with a set whose template is unknown.
        write("skipped", sample + message(sets(999, bytes(4)), time=0, domain=0))
        # The target and FILE.part must be regular files.
        os.mkfifo("pipe")
        os.symlink("cut", "link")
        os.symlink("cut", "other.part")

    def setUp(self):
        self.addCleanup(lambda: os.path.exists("file") and os.remove("file"))

    def capture(self, file, sends, says, ends=0):
        """Runs the command over a capture `none`."""
        return inside.texts("capture", "none", file,
                            variables={**self.path, "SENDS": os.fspath(sends), "SAYS": says, "ENDS": str(ends)})

    @rows(("pipe", "pipe"), ("link", "link"), ("other", "other.part"), (".", "."))
    def test_other_files(self, file, shown):
        self.assertEqual(self.capture(file, SAMPLE, EXPORTED.format(210, 0)),
                         (1, "", f"flowlabel-capture: {shown}: not a regular file, so it isn't replaced\n"))
        self.assertEqual(os.path.getsize("cut"), 5000)

    def test_a_planted_link(self):
        # It comes after the command has looked whether there is one.
        write("victim", "as before\n")
        self.addCleanup(os.unlink, "file.part")
        words, variables = planting("file.part", "victim")
        status, _, error = texts(*words, command("capture"), "none", "file", variables={
            **self.path, **variables, "SENDS": os.fspath(SAMPLE), "SAYS": EXPORTED.format(210, 0), "ENDS": "0"})
        self.assertEqual((status, error, read("victim")),
                         (4, "flowlabel-capture: file.part: File exists\n", "as before\n"))

    def test_a_part_of_an_earlier_call(self):
        os.link(write("part", "as before\n"), "file.part")
        self.assertEqual(self.capture("file", SAMPLE, EXPORTED.format(210, 0))[0], 0)
        self.assertEqual(read("part"), "as before\n")

    @rows(("stranger", True), ("stranger keeps", True), ("sleeps", True), ("stranger sleeps", False),
          ("stranger keeps sleeps", False))
    def test_a_stranger(self, how, is_made):
        """Another process connects first, and sends as many records. It is softflowd's that make the File, or none if
        both have ended when the command looks at their connections."""
        # Addresses 10.3.0.0/16 are 11.3.0.0/16 there.
        write("strange", SAMPLE.read_bytes().replace(b"\x0a\x03", b"\x0b\x03"))
        self.addCleanup(os.unlink, write("keeps", ""))
        status, _, error = texts(command("capture"), "none", "file", variables={
            **self.path, "SENDS": os.fspath(SAMPLE), "SAYS": EXPORTED.format(210, 0), "ENDS": "0", "HOW": how,
            "STRANGE": "strange"})
        if is_made:
            self.assertEqual((status, error, pathlib.Path("file").read_bytes() == SAMPLE.read_bytes()), (0, "", True))
        else:
            self.assertEqual((status, error, os.path.exists("file")), (1, (
                "flowlabel-capture: another process has sent to softflowd's port, so no File is made\n"), False))

    def test_all_records(self):
        status, _, error = self.capture("file", SAMPLE, EXPORTED.format(210, 0))
        self.assertEqual((status, error, os.path.exists("file")), (0, "", True))

    @rows(("a record that is missing", SAMPLE, EXPORTED.format(211, 0), 0, "sent 211 records, and file.part has 210"),
          ("a record too many", SAMPLE, EXPORTED.format(209, 0), 0, "sent 209 records, and file.part has 210"),
          ("a File that is cut short", "cut", EXPORTED.format(210, 0), 0, "F4 TruncatedMessage"),
          ("a set that can't be read", "skipped", EXPORTED.format(210, 0), 0, "file.part has 210; 1 sets are skipped"),
          ("nothing but a count", "", EXPORTED.format(210, 0), 0, "sent 210 records, and file.part has 0"),
          ("messages that failed", SAMPLE, EXPORTED.format(210, 3), 0, "failed to send 3 times"),
          ("no count", SAMPLE, "all is well", 0, "doesn't say how many records it sent: all is well"),
          ("no capture", "", "no such capture", 1, "ended with the status 1: no such capture"))
    def test_fault(self, _, sends, says, ends, error):
        found = self.capture("file", sends, says, ends)
        self.assertEqual(found[0], 1)
        self.assertIn(error, found[2])
        self.assertFalse(os.path.exists("file"))


@needs("softflowd")
class Real(Case):
    """The real softflowd over a capture of many flows."""

    @classmethod
    def prepare(cls):
        run(ROOT / "examples/packets", str(FLOWS), "capture.pcap", check=True)

    @rows(*zip(range(1, 11)))
    def test_run(self, number):
        file = f"flows-{number}"
        self.assertEqual(inside.texts("capture", "capture.pcap", file),
                         (0, f"{file}: {FLOWS} records, as many as softflowd sent\n", ""))
        self.assertTrue(os.path.exists(file))
