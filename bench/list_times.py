"""Runs the bench of prefix lists on each list, and prints its output with its memory: list_times.py PROGRAM LIST.."""

import subprocess

from measure import arguments, peak, run


def main():
    program, lists = arguments(__doc__, "PROGRAM", "LIST..")
    for name in lists:
        told, _ = run([program, name], subprocess.PIPE)
        print(f"{told.decode().strip()}, {peak([program, name]):.1f} MB")


main()
