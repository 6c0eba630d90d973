#!/usr/bin/env python3
"""Kills a program at each system call that it makes, by ptrace."""
import ctypes
import os
import signal
import subprocess

from harness import Wrong

TRACEME, GO_ON = 0, 24  # requests of ptrace: to be traced, and to go on up to the next call's beginning or end


def trace(request, process=0):
    ptrace = ctypes.CDLL(None, use_errno=True).ptrace
    ptrace.argtypes, ptrace.restype = [ctypes.c_long, ctypes.c_long, ctypes.c_void_p, ctypes.c_void_p], ctypes.c_long
    if ptrace(request, process, None, None):
        raise OSError(ctypes.get_errno(), "ptrace")


def stops_of(words, folder, most=None, stdin=subprocess.DEVNULL, wanted=0):
    """Runs a program that has to end with this status, and kills it at this number of beginnings
    and ends of system calls. Returns how many it reached."""
    how = {"cwd": folder, "stdin": stdin, "stdout": subprocess.DEVNULL, "preexec_fn": lambda: trace(TRACEME)}
    with subprocess.Popen(words, **how) as ran:
        for stops in range(100_000):
            _, status = os.waitpid(ran.pid, 0)
            if not os.WIFSTOPPED(status):
                ran.returncode = os.waitstatus_to_exitcode(status)
                if ran.returncode != wanted:
                    raise Wrong(f"{' '.join(words)} ended with {ran.returncode}")
                return stops
            if stops == most:
                os.kill(ran.pid, signal.SIGKILL)
                ran.returncode = os.waitstatus_to_exitcode(os.waitpid(ran.pid, 0)[1])
                return stops
            trace(GO_ON, ran.pid)
        raise Wrong("the program does not end")
