#!/usr/bin/env -S python3 -IS
"""Prints the peak of a command's resident memory, and how much that is for each row of its input.

    memory.py INPUT ROWS COMMAND..
    memory.py examples/quota.csv 7 crates/funnel_tool/out/funnel_tool replay 1

The command reads INPUT, and what it writes is dropped. The peak is what the system counts of the process (ru_maxrss), in which
its start from this program is counted too: a peak of no more than that is printed as `at most`. Prints `43212 KB, 221 bytes a row`.
"""
import os
import sys


def peak_of(command, path):
    """The peak of a command that reads this file, in KB."""
    streams = [(os.POSIX_SPAWN_OPEN, 0, path, os.O_RDONLY, 0), (os.POSIX_SPAWN_OPEN, 1, os.devnull, os.O_WRONLY, 0)]
    process = os.posix_spawnp(command[0], command, os.environ, file_actions=streams)
    _, status, usage = os.wait4(process, 0)
    if status != 0:
        sys.exit(f"{' '.join(command)}: status {os.waitstatus_to_exitcode(status)}")
    return usage.ru_maxrss


def main():
    if len(sys.argv) < 4:
        sys.exit(__doc__)
    path, rows, command = sys.argv[1], int(sys.argv[2]), sys.argv[3:]
    start, peak = peak_of(["true"], os.devnull), peak_of(command, path)
    bound = "at most " if peak <= start else ""
    print(f"{bound}{peak} KB, {peak * 1024 // rows} bytes a row")


if __name__ == "__main__":
    main()
