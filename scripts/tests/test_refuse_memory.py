"""scripts/refuse_memory: what it lets pass, and what not, of programs in C that take its place."""

import shutil
import subprocess
import unittest

from tests.support import PROGRAM, InFolder, needs_program, run

# Takes memory three times, and prints what the stored run wants.
PROGRAM_IN_C = """
#include <stdio.h>
#include <stdlib.h>
#include <string.h>
#include <unistd.h>
static int no_memory(void) { return write(2, "localise: no memory\\n", 20) == 20 ? 10 : 1; }
int main(void) {
    char *volatile block = malloc(10);
    if (!block) return no_memory();
    block = realloc(block, 1000);
    if (!block) AT_SECOND;
    strcpy(block, "Salut\\n");
    if (write(1, block, 6) != 6) return 9;
    return calloc(5, 20) ? 0 : no_memory();
}
"""


@unittest.skipUnless(shutil.which("cc"), "no C compiler")
class RefuseMemory(InFolder):
    def refuse(self, at_second: str):
        """What is said of a program that does this where its second request is refused."""
        source = self.write("program.c", PROGRAM_IN_C.replace("AT_SECOND", at_second))
        made = self.folder / "program"
        subprocess.run(["cc", "-O1", "-o", made, source], check=True)
        return run("refuse_memory", "--program", made, "--only", "the stored run")

    def test_every_request_is_refused(self) -> None:
        done = self.refuse("return no_memory()")
        self.assertEqual((done.returncode, done.stderr), (0, b""))
        self.assertEqual(
            done.stdout.decode(),
            "cases: 1; requests for memory: 3, at most 3 in one case; runs: 6\n"
            "4: status 10, nothing printed\n"
            "2: status 10, lines in front\n",
        )

    def test_other_endings(self) -> None:
        endings = {
            "abort()": "status=-6",
            "return write(1, \"Ja\", 2)": "lines=b'Ja'",
            "return write(1, \"Sal\", 3) == 3 ? no_memory() : 9": "lines=b'Sal'",
            "return 10": None,
            "return write(2, \"no\", 2) + 8": "fault=b'no'",
            "return 3": "status=3",
        }
        for at_second, said in endings.items():
            with self.subTest(at_second):
                done = self.refuse(at_second)
                if said is None:  # no fault line at all is a front of it
                    self.assertEqual(done.returncode, 0)
                    self.assertIn(b"fault line cut", done.stdout)
                else:
                    self.assert_one_line(done, "the stored run", "request 2 refused", said)

    @needs_program
    def test_the_program(self) -> None:
        done = run("refuse_memory", "--program", PROGRAM, "--only", "the stored run")
        self.assertEqual((done.returncode, done.stderr), (0, b""))
        self.assertIn(b"nothing printed", done.stdout)
