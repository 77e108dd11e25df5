"""The tool-info module for BenchExec, over stand-ins of its classes, the script for the termination competition, and GNU
parallel with two hosts."""

import importlib.util
import json
import os
import shutil
import subprocess
import sys
import tempfile
import types
import unittest
from unittest import mock

import examples
from test_command import STAND_IN, script

MODULE = os.path.join(examples.TOP, "share", "benchexec", "koat.py")
COMPETITION = os.path.join(examples.TOP, "share", "competition", "starexec_run_koat")


def tool():
    """The tool of the module, where BenchExec's names are those that it uses."""
    names = {it: types.ModuleType(it) for it in ("benchexec", "benchexec.result", "benchexec.tools",
                                                 "benchexec.tools.template")}
    names["benchexec.result"].RESULT_ERROR = "ERROR"
    names["benchexec"].result = names["benchexec.result"]
    names["benchexec.tools.template"].BaseTool2 = object
    with mock.patch.dict(sys.modules, names):
        spec = importlib.util.spec_from_file_location("koat_for_benchexec", MODULE)
        module = importlib.util.module_from_spec(spec)
        spec.loader.exec_module(module)
    return module.Tool()


def ended(status, output):
    """A run that ended by itself."""
    return types.SimpleNamespace(exit_code=types.SimpleNamespace(value=status, signal=None), output=output)


class BenchExec(unittest.TestCase):
    def test_command_lines(self):
        task = types.SimpleNamespace(single_input_file="-p.koat")
        self.assertEqual(tool().cmdline("koat", [], task, None), ["koat", "best", "--", "-p.koat"])
        self.assertEqual(tool().cmdline("koat", ["analyse", "--pivots", "5"], task, None),
                         ["koat", "analyse", "--pivots", "5", "--", "-p.koat"])

    def test_results(self):
        lines = ["fact l: x1 >= 0\n", *examples.text("gcd").splitlines(True)]
        self.assertEqual(tool().determine_result(ended(0, lines)), "bounded")
        self.assertEqual(tool().determine_result(ended(1, ["unknown\n"])), "unknown")
        self.assertEqual([tool().determine_result(ended(it, [])) for it in (6, 5, None, 0)],
                         ["ERROR (refused)", "ERROR (out of memory)", "ERROR", "ERROR"])
        self.assertEqual([tool().get_value_from_output(lines, it) for it in ("total", "time 2", "time 9")],
                         ["A + B + 2", "A", None])


class TerminationCompetition(unittest.TestCase):
    def first(self, name, koat=STAND_IN, **settings):
        ran = subprocess.run([COMPETITION, name], stdout=subprocess.PIPE, stderr=subprocess.PIPE, text=True, check=False,
                             env={**os.environ, "KOAT": koat, **settings})
        return ran.returncode, ran.stdout.splitlines()[0], ran.stderr

    def test_first_lines(self):
        self.assertEqual(self.first(examples.path("gcd")), (0, "WORST_CASE(?, O(n^1))", ""))
        self.assertEqual(self.first(examples.path("stay")), (0, "MAYBE", ""))
        self.assertEqual(self.first("missing"), (0, "MAYBE", ""))
        with tempfile.TemporaryDirectory() as room:
            slow = script(room, "slow", "exec sleep 60")
            self.assertEqual(self.first(examples.path("gcd"), slow, STAREXEC_WALLCLOCK_LIMIT="2"), (0, "MAYBE", ""))


class Parallel(unittest.TestCase):
    @unittest.skipUnless(shutil.which("parallel"), "parallel isn't there")
    def test_two_hosts(self):
        """Each file gets its line by one of two hosts, which a script stands for; a second call asks nothing again."""
        with tempfile.TemporaryDirectory() as room:
            ssh = script(room, "ssh", f'host=$1; shift; [ "$1" != -- ] || shift; echo "$host" >>{room}/hosts; exec sh -c "$*"')
            names = [examples.path(it) for it in ("gcd", "stay", "first", "triangle")]
            show = os.path.join(examples.TOP, "tools", "show")
            words = ["parallel", "--will-cite", "--ssh", ssh, "--sshlogin", "1/one,1/two", "--workdir", room, "--joblog",
                     os.path.join(room, "log"), "--resume-failed", "env", f"KOAT={STAND_IN}", show, "many", "--jobs", "1",
                     "{}", ":::", *names]
            said = [subprocess.run(words, stdout=subprocess.PIPE, stderr=subprocess.DEVNULL, check=False,
                                   env={**os.environ, "HOME": room, "SHELL": "/bin/sh"}).stdout for _ in range(2)]
            with open(os.path.join(room, "hosts"), encoding="utf-8") as file:
                hosts = set(file.read().split())
        told = [json.loads(it) for it in said[0].splitlines()]
        self.assertEqual((sorted(it["file"] for it in told), hosts, said[1]), (sorted(names), {"one", "two"}, b""))
