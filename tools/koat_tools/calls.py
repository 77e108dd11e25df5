"""Calls of koat with limits on their time and their memory."""

import os
import signal
import subprocess
import tempfile
import threading
import time

# How often the memory of a call is looked at, in seconds.
TICK = 0.1
PAGE = os.sysconf("SC_PAGE_SIZE")


class Limits:
    """What one call may take: seconds, and mebibytes of memory; none is no limit."""

    def __init__(self, seconds=None, mebibytes=None):
        self.seconds, self.mebibytes = seconds, mebibytes


class Calls:
    """Calls of a program that are under way, so that they can be ended."""

    def __init__(self, path, limits):
        self.path, self.limits = path, limits
        self.running, self.lock, self.is_stopped = set(), threading.Lock(), False

    def call(self, words, data):
        """The status and the output of a call with these words and this input, or the problem that ended it."""
        with tempfile.TemporaryFile() as given:
            given.write(data)
            given.seek(0)
            return self._called(words, given)

    def _called(self, words, given):
        with self.lock:
            if self.is_stopped:
                return None, b"", "interrupted"
            try:
                process = subprocess.Popen([self.path, *words], stdin=given, stdout=subprocess.PIPE,
                                           stderr=subprocess.DEVNULL, start_new_session=True)
            except OSError as fault:
                return None, b"", f"koat can't be run: {fault.strerror}"
            self.running.add(process)
        try:
            output, problem = self._waited(process)
        finally:
            with self.lock:
                self.running.discard(process)
        return process.returncode, output, problem

    def _waited(self, process):
        begun = time.monotonic()
        while True:
            try:
                output, _ = process.communicate(timeout=TICK)
                return output, "interrupted" if self.is_stopped and process.returncode < 0 else None
            except subprocess.TimeoutExpired:
                pass
            problem = self._passed(process, time.monotonic() - begun)
            if problem:
                _end(process)
                process.communicate()
                return b"", problem

    def _passed(self, process, taken):
        """The limit that a call has passed, in words."""
        if self.limits.seconds is not None and taken > self.limits.seconds:
            return f"time limit of {self.limits.seconds:g} seconds"
        if self.limits.mebibytes is not None and _resident(process.pid) > self.limits.mebibytes * 2**20:
            return f"memory limit of {self.limits.mebibytes} MiB"
        return None

    def stop(self):
        """Ends the calls that are under way; none begins after."""
        with self.lock:
            self.is_stopped = True
            for process in self.running:
                _end(process)


def _end(process):
    """Ends a call with all that it started."""
    try:
        os.killpg(process.pid, signal.SIGKILL)
    except (ProcessLookupError, PermissionError):
        process.kill()


def _resident(number):
    """How many bytes of memory a process holds."""
    try:
        with open(f"/proc/{number}/statm", encoding="ascii") as file:
            return int(file.read().split()[1]) * PAGE
    except (OSError, IndexError, ValueError):
        return 0
