"""The calls of koat that docs/front-ends.md shows in several languages."""

import os
import re
import shutil
import subprocess
import tempfile
import unittest

import examples
from test_command import STAND_IN, script

# `koat facts -- FILE` by the stand-in, which reads standard input, and a text that takes too long.
KOAT = f"""case $2 in
    --) exec "$0" "$1" <"$3" ;;
esac
[ "$1" = --version ] && exec {STAND_IN} --version
text=$(cat; echo .)
[ "$text" != slow. ] || exec sleep 60
printf %s "${{text%.}}" | exec {STAND_IN} "$1"
"""


def block(language):
    """The code that the document shows in a language, with a limit of 6 seconds."""
    with open(os.path.join(examples.TOP, "docs", "front-ends.md"), encoding="utf-8") as file:
        return re.search(rf"```{language}\n(.*?)```", file.read(), re.S).group(1).replace("60", "6")


class FrontEnds(unittest.TestCase):
    def setUp(self):
        room = tempfile.TemporaryDirectory()
        self.addCleanup(room.cleanup)
        self.room = room.name
        koat = script(self.room, "koat", KOAT)
        script(self.room, "koat-show", f'KOAT={koat} exec {examples.TOP}/tools/show "$@"')
        self.put("bad.koat", "(")
        self.put("slow.koat", "slow")

    def put(self, name, text):
        with open(os.path.join(self.room, name), "w", encoding="utf-8") as file:
            file.write(text)
        return os.path.join(self.room, name)

    def called(self, *words):
        variables = {**os.environ, "PATH": self.room + os.pathsep + os.environ["PATH"]}
        ran = subprocess.run(words, stdout=subprocess.PIPE, stderr=subprocess.DEVNULL, cwd=self.room, env=variables,
                             text=True, check=False)
        return ran.returncode, ran.stdout

    @unittest.skipUnless(shutil.which("gcc"), "gcc isn't there")
    def test_c(self):
        source, program = self.put("ask.c", block("c")), os.path.join(self.room, "ask")
        self.assertEqual(self.called("gcc", "-Wall", "-Wextra", "-Werror", "-o", program, source)[0], 0)
        self.assertEqual([self.called(program, it) for it in (examples.path("gcd"), "bad.koat", "slow.koat")],
                         [(0, "at most: A + B + 2\n"), (6, ""), (124, "")])

    @unittest.skipUnless(shutil.which("java"), "java isn't there")
    def test_java(self):
        source = self.put("Ask.java", block("java"))
        status, said = self.called("java", source, examples.path("gcd"))
        self.assertEqual((status, '"verdict": "bounded"' in said), (0, True))
        self.assertEqual(self.called("java", source, "slow.koat"), (11, "null\n"))

    def test_python(self):
        source = self.put("ask.py", block("python"))
        said = [self.called("python3", source, it)[1] for it in (examples.path("gcd"), "bad.koat", "slow.koat")]
        self.assertEqual(said[0], "('bounded', 'A + B + 2', None)\n")
        self.assertTrue(said[1].startswith("('refused', None, "))
        self.assertEqual(said[2], "None\n")
