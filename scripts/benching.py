#!/usr/bin/env python3
"""What the scripts of `make bench` share: spools with many jobs, batches, and times of
processes."""

import itertools
import os
import shutil
import statistics
import subprocess
import sys
import time

SYSTEMS = 100
FILES = ("bench.db", "bench.db-wal")
SEND = b"send site0 /tmp/letter ~/letter"


def ended(what):
    """Ends the script with an error: a measured run went wrong."""
    sys.exit(f"{os.path.basename(sys.argv[0])}: {what}")


def sends(jobs, bytes_of_each):
    """The requests of a batch that queue so many jobs for the systems in turn, one by one."""
    for at in range(jobs):
        yield b"%d send site%d /tmp/letter ~/letter\n%s" % (len(bytes_of_each), at % SYSTEMS, bytes_of_each)


def stream(jobs, bytes_of_each):
    """These requests as one text."""
    return b"".join(sends(jobs, bytes_of_each))


def make(program, jobs, bytes_of_each):
    """Makes a spool in the working directory with 100 systems, which may be called at any time,
    and so many jobs for them in turn. The log is copied into the file if the program closes it."""
    for name in FILES:
        if os.path.exists(name):
            os.remove(name)
    with open("uuspool.toml", "w", encoding="utf-8") as file:
        file.write('name = "here"\nspool = "bench.db"\nlimit = 1073741824\n')
    subprocess.run([program, "init"], stdout=subprocess.DEVNULL, check=True)
    systems = b"".join(b"system site%d\ntime Any\n" % at for at in range(SYSTEMS))
    give(program, itertools.chain([b"%d load\n%s" % (len(systems), systems)], sends(jobs, bytes_of_each)))


def put(source, target):
    """Copies the files to the target, and to the disk, so that no later sync has to."""
    os.makedirs(target, exist_ok=True)
    for name in FILES:
        shutil.copyfile(f"{source}/{name}", f"{target}/{name}")
        with open(f"{target}/{name}", "rb+") as file:
            os.fsync(file.fileno())


def give(program, requests):
    """Gives a batch these requests, and ignores its answers."""
    # (one by one, because memory that this process allocates would count for each process that it
    # starts later)
    batch = subprocess.Popen([program, "batch"], stdin=subprocess.PIPE, stdout=subprocess.DEVNULL)
    for request in requests:
        batch.stdin.write(request)
    batch.stdin.close()
    if batch.wait():
        ended(f"a batch ended with {batch.returncode}")


def taken(words, given=subprocess.DEVNULL, **where):
    """The seconds of a process from its start to its end, and those of the processor for it and
    the processes that it waited for. Its output is ignored."""
    begun = time.perf_counter()
    process = subprocess.Popen(words, stdin=given, stdout=subprocess.DEVNULL, **where)
    _, status, used = os.wait4(process.pid, 0)
    wall = time.perf_counter() - begun
    process.returncode = os.waitstatus_to_exitcode(status)
    if status:
        ended(f"{' '.join(map(str, words))} ended with {process.returncode}")
    return wall, used.ru_utime + used.ru_stime


def processor_of(words):
    """The seconds of the processor for a process without input."""
    return taken(words)[1]


def median_ms(times):
    return statistics.median(times) * 1000


class Batch:
    """A batch that gets one request after the other."""

    def __init__(self, program):
        self.spool = subprocess.Popen([program, "batch"], stdin=subprocess.PIPE, stdout=subprocess.PIPE)
        # (the spool is open after its first answer)
        self.ask(b"due")

    def ask(self, words, given=b""):
        self.spool.stdin.write(b"%d %s\n" % (len(given), words) + given)
        self.spool.stdin.flush()
        return self.answer()

    def answer(self):
        """The output of the next answer, which has to have status 0."""
        status, *counts = self.spool.stdout.readline().split()
        output, errors = [self.spool.stdout.read(int(count)) for count in counts]
        if status != b"0":
            ended(f"a request was answered {output + errors}")
        return output

    def mean(self, words, given, times):
        """The mean time of so many of these requests, in milliseconds."""
        begun = time.perf_counter()
        for _ in range(times):
            self.ask(words, given)
        return (time.perf_counter() - begun) * 1000 / times

    def memory(self):
        """The most memory that the process has had so far, in MiB."""
        with open(f"/proc/{self.spool.pid}/status", encoding="ascii") as lines:
            return next(int(line.split()[1]) for line in lines if line.startswith("VmHWM")) / 1024

    def processor(self):
        """The seconds of the processor that it has taken so far."""
        # (the number of a process's clock, as clock_getcpuclockid of Linux makes it)
        return time.clock_gettime((~self.spool.pid << 3) | 2)

    def send_many(self, jobs):
        """Sends so many jobs of a byte for the systems in turn, as one stream, and waits for the
        answers."""
        self.spool.stdin.write(stream(jobs, b"x"))
        self.spool.stdin.flush()
        for _ in range(jobs):
            self.answer()

    def close(self):
        self.spool.stdin.close()
        self.spool.stdout.close()
        if self.spool.wait():
            ended("the batch failed")
