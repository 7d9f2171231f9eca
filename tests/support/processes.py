"""What other processes are doing, for tests of signals."""

import contextlib
import os
import time

# How many seconds a busy machine may need.
PATIENCE = 600


def wait(is_done):
    """Waits until something is done."""
    end = time.monotonic() + PATIENCE
    while not is_done():
        if time.monotonic() > end:
            raise TimeoutError(f"still waiting after {PATIENCE} seconds")
        time.sleep(0.005)


def wait_for(name, process):
    """Waits until there is a file of this name and a process that was started sleeps, or the process has ended."""
    wait(lambda: process.poll() is not None or os.path.exists(name) and is_asleep(process.pid))


def state(process):
    """Returns the letter of a process's state and the number of its session, which follow its name in parentheses."""
    with open(f"/proc/{process}/stat", encoding="utf-8", errors="replace") as file:
        letter, _, _, session = file.read().rpartition(")")[2].split()[:4]
    return letter, int(session)


def is_asleep(process):
    """Returns whether a process sleeps. If a signal comes just before a Python script waits for something, the script
    looks at the signal only afterwards. So tests send signals to scripts that sleep."""
    return state(process)[0] == "S"


def are_asleep(session):
    """Returns whether all processes of a session sleep or have ended."""
    letters = set()
    for process in filter(str.isdecimal, os.listdir("/proc")):
        with contextlib.suppress(OSError):
            letter, its_session = state(process)
            letters |= {letter} if its_session == session else set()
    return letters <= {"S", "Z"}
