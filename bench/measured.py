"""Runs a program and measures it by itself: what the programs of bench/ share.

`ru_maxrss`, which the system tells of a program that has ended, is never below the memory that the caller had when it
began it. So the peak is read where the program stops on its way out (PTRACE_EVENT_EXIT), from its own `VmHWM`.
"""

import ctypes
import os
import signal
import subprocess
import time

TRACE_ME, CONTINUE, SET_OPTIONS = 0, 7, 0x4200
TRACE_EXIT, KILL_WITH_ME, EXIT_EVENT = 0x40, 0x100000, 6
LIBRARY = ctypes.CDLL(None, use_errno=True)


def trace(request, process, value=0):
    LIBRARY.ptrace(ctypes.c_long(request), ctypes.c_long(process), ctypes.c_void_p(0), ctypes.c_void_p(value))


def peak_of(process):
    """The most memory that a program had so far, in KB."""
    with open(f"/proc/{process}/status", encoding="ascii") as file:
        return next((int(it.split()[1]) for it in file if it.startswith("VmHWM:")), 0)


class Program:
    """A program that runs; `end` waits for it and tells what it took."""

    def __init__(self, words, out, err=subprocess.PIPE):
        self.begun = time.time()
        self.child = subprocess.Popen(words, stdout=out, stderr=err, preexec_fn=lambda: trace(TRACE_ME, 0))
        self.process, self.stdout, self.stderr = self.child.pid, self.child.stdout, self.child.stderr
        os.waitpid(self.process, 0)
        self.begun = time.time()
        trace(SET_OPTIONS, self.process, TRACE_EXIT | KILL_WITH_ME)
        trace(CONTINUE, self.process)

    def end(self):
        """The status, the seconds since it began, the processor seconds, and the peak memory in KB."""
        peak = 0
        while True:
            _, status, used = os.wait4(self.process, 0)
            if not os.WIFSTOPPED(status):
                self.child.returncode = os.waitstatus_to_exitcode(status)
                return self.child.returncode, time.time() - self.begun, used.ru_utime + used.ru_stime, peak
            if status >> 16 == EXIT_EVENT:
                peak = peak_of(self.process)
                trace(CONTINUE, self.process)
            else:
                trace(CONTINUE, self.process, os.WSTOPSIG(status) if os.WSTOPSIG(status) != signal.SIGTRAP else 0)


def run(words, out):
    """Runs a program to its end: its standard error, of at most some lines, and what `Program.end` tells."""
    program = Program(words, out)
    ended = program.end()
    with program.stderr as file:
        return (file.read().decode().strip(), *ended)
