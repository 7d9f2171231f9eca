"""Sums of Files that other machines make, for flowlabel-bill: by GNU parallel, or by the workers of Dask's scheduler.

Each File is a run of SUMS there, which also prints the checksum of the File, and a zero byte at the end.
"""

from __future__ import annotations

import importlib.util
import io
import os
import subprocess
import sys

from flowlabel import disk, process, programs, tables

TYPE_CHECKING = False
if TYPE_CHECKING:
    import argparse
    from collections.abc import Iterator
    from typing import Any
    from flowlabel.files import File

SUMS = ("sh", "-c", 'file=$1; shift; b2sum -l 256 <"$file" && "$@" "$file" && printf "\\0"', "sh")
# What GNU parallel takes for the beginning of its inputs.
SEPARATORS = (":::", "::::", ":::+", "::::+")
# How many seconds a scheduler may have no workers.
PATIENCE = 600
DEBIAN = "/usr/bin/python3"


def run(options: argparse.Namespace, words: list[str], its: list[File]) -> Iterator[tables.Table]:
    """Yields the table of flowlabel-many of each File."""
    texts = by_parallel(words, its) if options.parallel else by_dask(options.scheduler, words, its)
    if len(texts) != len(its):
        raise process.Failure(f"the sums of {len(texts)} Files came back instead of {len(its)}")
    for file, text in zip(its, texts, strict=True):
        checksum, _, table = text.partition(b"\n")
        with open(file.name, "rb") as opened:
            if checksum.split()[:1] != [disk.checksum(opened)] or not table.endswith(b"\n\0"):
                raise process.Failure(f"{file}: another machine has summed other bytes")
        yield tables.Table(f"{file}: the table of another machine", io.BytesIO(table[:-1]))


def by_parallel(words: list[str], its: list[File]) -> list[bytes]:
    """Returns what GNU parallel has other machines print of each File."""
    import tempfile
    import time
    programs.need("parallel", "parallel")
    if not subprocess.run(["parallel", "--version"], capture_output=True).stdout.startswith(b"GNU parallel"):
        raise process.Failure("there is no GNU parallel")
    if any(brace in word for word in words for brace in "{}") or {*SEPARATORS} & {*words}:
        raise process.Failure("GNU parallel would replace the braces or colons in the options")
    command = ["parallel", "--will-cite", "-0", "-k", "-q", "-j", os.environ.get("JOBS") or "100%", *SUMS, "{}",
               programs.find("flowlabel-many"), *words]
    with tempfile.TemporaryFile() as names, tempfile.TemporaryFile() as out:
        names.write(b"".join(os.fsencode(file.name) + b"\0" for file in its))
        names.seek(0)
        with subprocess.Popen(command, stdin=names, stdout=out) as started:
            try:
                programs.ended_well(started.wait() and 1)
            except BaseException:
                # By the first signal it only starts no more runs.
                for _ in range(2):
                    started.terminate()
                    time.sleep(0.1)
                raise
        out.seek(0)
        return [text + b"\0" for text in out.read().split(b"\0")[:-1]]


def find_dask(words: list[str]) -> None:
    """Ends the command without Dask. Only Debian's python3 finds Debian's package, and runs flowlabel-bill with these
    words then."""
    if not importlib.util.find_spec("distributed"):
        if sys.executable == DEBIAN or not os.access(DEBIAN, os.X_OK):
            raise process.Failure("there is no Dask (Debian: python3-distributed)")
        os.execv(DEBIAN, [DEBIAN, "-I", os.path.join(programs.COMMANDS, "flowlabel-bill"), *words])


def by_dask(scheduler: str, words: list[str], its: list[File]) -> list[bytes]:
    """Returns what the workers of a scheduler of Dask print of each File."""
    import logging
    distributed = importlib.import_module("distributed")
    # Dask would log what the one line of a fault says.
    for name in ("asyncio", "distributed"):
        logging.getLogger(name).setLevel(logging.CRITICAL)
    program = programs.find("flowlabel-many")
    try:
        with distributed.Client(scheduler, timeout=PATIENCE, set_as_default=False) as client:
            client.wait_for_workers(1, timeout=PATIENCE)
            runs = [client.submit(subprocess.run, [*SUMS, file.name, program, *words], capture_output=True,
                                  stdin=subprocess.DEVNULL, pure=False) for file in its]
            return [output_of(client, run, distributed.TimeoutError) for run in runs]
    except (distributed.KilledWorker, OSError, RuntimeError, TypeError, ValueError, distributed.TimeoutError) as fault:
        process.warn(f"Dask: {scheduler}: {fault}")
        # Otherwise a client without a connection would wait for it once more.
        os._exit(1)


def output_of(client: Any, run: Any, late: type[Exception]) -> bytes:
    """Returns the output of a run, which may take long, but not without any worker."""
    while True:
        try:
            ended: subprocess.CompletedProcess[bytes] = run.result(timeout=PATIENCE)
            break
        except late:
            if not client.scheduler_info()["workers"]:
                raise
    process.say_error(ended.stderr)
    if ended.returncode != 0:
        raise OSError("a run failed")
    return ended.stdout
