"""Starts commands for a script that has grown large, so that their memory is their own.

A process that is started counts the memory of the one that started it towards its own largest, since for a moment it is a
copy of it. This program stays small (some 9 MiB, which is the least that a measured process can show), and starts what
it is asked for: each line that it reads is a list of a command, a file for its standard input, one for its standard
output and one for its standard error; each line that it writes is the wall, user and system seconds, the largest memory
in KiB of the command or one of its children, and the status.
"""
import json
import os
import sys
import time


def run(command, source, out, errors):
    start = time.perf_counter()
    child = os.posix_spawn("/bin/sh", ["sh", "-c", command], os.environ, file_actions=[
        (os.POSIX_SPAWN_OPEN, 0, source, os.O_RDONLY, 0),
        (os.POSIX_SPAWN_OPEN, 1, out, os.O_WRONLY | os.O_CREAT | os.O_TRUNC, 0o644),
        (os.POSIX_SPAWN_OPEN, 2, errors, os.O_WRONLY | os.O_CREAT | os.O_TRUNC, 0o644),
    ])
    _, status, used = os.wait4(child, 0)
    return time.perf_counter() - start, used.ru_utime, used.ru_stime, used.ru_maxrss, os.waitstatus_to_exitcode(status)


for line in sys.stdin:
    print(json.dumps(run(*json.loads(line))), flush=True)
