"""Exporters and collectors over the loopback interface, for tests of what they send and write."""

import contextlib
import os
import signal
import socket
import subprocess

from support.processes import is_asleep, wait

# How many seconds of silence before it is looked at whether an exporter has ended.
PAUSE = 0.1
# nfcapd and others end with the test, also if it is killed.
BOUND = ("setpriv", "--pdeathsig", "KILL")
QUIET = {"stdin": subprocess.DEVNULL, "stdout": subprocess.DEVNULL, "stderr": subprocess.DEVNULL}


def softflowd(*options):
    """Returns how softflowd is started to send the flows of capture.pcap to a port."""
    return lambda port: ["softflowd", "-r", "capture.pcap", "-n", f"127.0.0.1:{port}", "-m", "200000", "-d", "-c",
                         "none",
                         *options]


def pmacctd(version, *lines):
    """Returns how pmacctd is started to send the flows of capture.pcap to a port, with NetFlow or IPFIX."""
    def command(port):
        with open("pmacctd.conf", "w", encoding="ascii") as file:
            print("daemonize: false", "pcap_savefile: capture.pcap", "snaplen: 128", "plugins: nfprobe[a]",
                  f"nfprobe_version[a]: {version}", f"nfprobe_receiver[a]: 127.0.0.1:{port}",
                  "aggregate[a]: src_host, dst_host, src_port, dst_port, proto, tos, tcpflags", *lines, sep="\n",
                  file=file)
        return ["pmacctd", "-f", "pmacctd.conf"]
    return command


def received(command):
    """Returns the messages that an exporter sends over UDP until it ends."""
    with socket.socket(socket.AF_INET, socket.SOCK_DGRAM) as receiver:
        receiver.setsockopt(socket.SOL_SOCKET, socket.SO_RCVBUF, 1 << 24)
        receiver.bind(("127.0.0.1", 0))
        receiver.settimeout(PAUSE)
        messages, has_ended = [], False
        with subprocess.Popen([*BOUND, *command(receiver.getsockname()[1])], **QUIET) as exporter:
            while True:
                try:
                    messages.append(receiver.recv(65535))
                except TimeoutError:
                    if has_ended:
                        return messages
                    has_ended = exporter.poll() is not None


def queued(port):
    """Returns how many bytes wait for the receiver at a port, or None if nobody listens there."""
    with open("/proc/net/udp", encoding="ascii") as table:
        for line in table:
            words = line.split()
            if words[1].endswith(f":{port:04X}"):
                return int(words[4].split(":")[1], 16)
    return None


def end(collector, number):
    """Ends a collector by a signal, again if need be: nfcapd misses one that comes just before it waits for data."""
    while collector.poll() is None:
        collector.send_signal(number)
        with contextlib.suppress(subprocess.TimeoutExpired):
            collector.wait(PAUSE)


def collect(messages, folder, *options, program="nfcapd", ending=signal.SIGTERM):
    """Sends messages to nfcapd or sfcapd, ends it, and returns the name of its file."""
    os.mkdir(folder)
    with socket.socket(socket.AF_INET, socket.SOCK_DGRAM) as sender:
        sender.bind(("127.0.0.1", 0))
        port = sender.getsockname()[1]
        sender.close()
        words = [*BOUND, program, "-p", str(port), "-b", "127.0.0.1", "-w", folder, "-t", "3600", *options]
        with subprocess.Popen(words, **QUIET) as collector, socket.socket(socket.AF_INET, socket.SOCK_DGRAM) as sender:
            try:
                wait(lambda: queued(port) is not None)
                for message in messages:
                    sender.sendto(message, ("127.0.0.1", port))
                    wait(lambda: queued(port) == 0)
                # It has read the last message, and waits for another one.
                wait(lambda: queued(port) == 0 and is_asleep(collector.pid))
            finally:
                end(collector, ending)
    return os.path.join(folder, min(os.listdir(folder)))
