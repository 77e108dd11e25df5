"""Many calls of the program, through a driver in C that starts one after the other with little ado.

`Driver(program, room)` compiles `many_calls.c` beside this file into a folder; `calls(made, seconds, waited)` makes
calls, each of words, of a text for its standard input and of what it has in its environment beside ours, and gives for
each its status, as `subprocess` tells it, and what it wrote to standard output and to standard error. A call that
takes more processor time, or more time by the clock, is ended by a signal.
"""

import os
import struct
import subprocess
import tempfile

SOURCE = os.path.join(os.path.dirname(os.path.abspath(__file__)), "many_calls.c")


def packed(part):
    return struct.pack("=I", len(part)) + part


def listed(words):
    return struct.pack("=I", len(words)) + b"".join(packed(os.fsencode(word)) for word in words)


class Driver:
    def __init__(self, program, room):
        self.program, self.driver = program, os.path.join(room, "many_calls")
        subprocess.run(["cc", "-O2", "-Wall", "-o", self.driver, SOURCE], check=True)

    def calls(self, made, seconds, waited):
        with tempfile.TemporaryFile() as told:
            for words, text, settings in made:
                told.write(listed(words) + listed([f"{name}={value}" for name, value in settings.items()]))
                told.write(packed(text))
            told.seek(0)
            answers = subprocess.run([self.driver, self.program, str(seconds), str(waited)], stdin=told,
                                     stdout=subprocess.PIPE, check=True).stdout
        return self.read(answers)

    def read(self, answers):
        ends, at, parts = [], 0, []
        while at < len(answers):
            length, = struct.unpack_from("=I", answers, at)
            parts.append(answers[at + 4:at + 4 + length])
            at += 4 + length
        for status, wrote, errors in zip(*[iter(parts)] * 3):
            number, = struct.unpack("=i", status)
            ends.append((-os.WTERMSIG(number) if os.WIFSIGNALED(number) else os.WEXITSTATUS(number), wrote, errors))
        return ends
