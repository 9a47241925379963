"""scripts/localise: one message from the shell."""

import unittest

from tests import support
from tests.support import PROGRAM, InFolder, mo, needs_program, run

# Form 0 isn't that of 1 in every language.
SLOVENIAN = "nplurals=4; plural=(n%100==1 ? 1 : n%100==2 ? 2 : n%100==3 || n%100==4 ? 3 : 0);"
WORDS = ["--domain", "files", "--locale"]


@needs_program
class Localise(InFolder):
    def setUp(self) -> None:
        super().setUp()
        self.locales = support.locales(self)

    def localise(self, *words: object, **environment: str):
        return run("localise", "--program", PROGRAM, "--catalogs", self.locales, *words,
                   **environment)

    def line(self, *words: object, **environment: str) -> str:
        done = self.localise(*words, **environment)
        self.assertEqual((done.returncode, done.stderr), (0, b""))
        return done.stdout.decode()

    def test_lines(self) -> None:
        lines = {
            (*WORDS, "fr_CA", "Hello %s"): "Allô %s\n",
            (*WORDS, "fr_BE.UTF-8", "Hello %s"): "Bonjour %s\n",
            (*WORDS, "de", "Hello %s"): "Hello %s\n",
            (*WORDS, "C", "Hello %s"): "Hello %s\n",
            (*WORDS, "fr", "--context", "menu", "Open"): "Ouvrir\n",
            (*WORDS, "fr", "Open"): "Open\n",
            (*WORDS, "fr", "--item", "Ana", "--item", "Luis", "Hello %s"): "Bonjour Ana, Luis\n",
            (*WORDS, "fr", "--count", "2", "--plural", "%s files", "--item", "2", "%s file"):
                "2 fichiers\n",
            (*WORDS, "de", "--count", "2", "--plural", "two\nlines", "one"): "two\nlines\n",
            ("--domain", "tools", *WORDS, "fr", "Hello %s"): "Salut %s\n",
            ("--domain", "tools", *WORDS, "fr_CA", "Bye"): "Au revoir\n",
        }
        for words, wanted in lines.items():
            with self.subTest(words):
                self.assertEqual(self.line(*words), wanted)

    def test_lists_by_cldr(self) -> None:
        words = ["--cldr", support.cldr(self), *WORDS]
        items = ["--item", "Ana", "--item", "Ibiza", "Hello %s"]
        self.assertEqual(self.line(*words, "es_MX", *items), "Hola Ana e Ibiza\n")
        self.assertEqual(self.line(*words, "fr", *items), "Bonjour Ana et Ibiza\n")
        words = ["--list", "or", *words]
        self.assertEqual(self.line(*words, "fr", *items), "Bonjour Ana or Ibiza\n")
        items = ["--item", "Ana", "--item", "hora", "Hello %s"]
        self.assertEqual(self.line(*words, "es", *items), "Hola Ana u hora\n")

    def test_the_environment(self) -> None:
        words = ["--domain", "files", "Hello %s"]
        self.assertEqual(self.line(*words, LANG="es_ES.UTF-8"), "Hola %s\n")
        self.assertEqual(self.line(*words, LANG="es", LC_ALL="fr_CA"), "Allô %s\n")
        self.assertEqual(self.line(*words, LANG="fr", LANGUAGE="de:es:fr"), "Hola %s\n")
        self.assertEqual(self.line(*words, LANG="fr", LANGUAGE="de:C:fr"), "Hello %s\n")
        self.assertEqual(self.line(*words), "Hello %s\n")

    def test_a_message_without_a_count_has_its_first_form(self) -> None:
        self.write("locale/sl/LC_MESSAGES/files.mo", mo(("Hello %s", "Živjo %s"), plural=SLOVENIAN))
        self.assertEqual(self.line(*WORDS, "sl", "Hello %s"), "Živjo %s\n")
        self.assertEqual(self.line(*WORDS, "sl", "--count", "1", "Hello %s"), "Hello %s\n")

    def test_explained(self) -> None:
        told = self.line("--explain", *WORDS, "fr_CA", "--context", "menu", "Open").splitlines()
        self.assertEqual(told[0], "fr_CA is fr-CA, count 1")
        self.assertRegex(told[1], "^fr-CA: no form for the count in .*fr_CA/LC_MESSAGES/files.mo")
        self.assertRegex(told[2], "^fr: form 0 of .*fr/LC_MESSAGES/files.mo")
        self.assertEqual(told[3:], ["und: not reached", "Ouvrir"])
        told = self.line("--explain", *WORDS, "de", "Open").splitlines()
        self.assertEqual(told[1:], ["de: no bundle", "und: no bundle", "own words", "Open"])

    def test_faults(self) -> None:
        self.write("locale/it/LC_MESSAGES/files.mo", mo(("a", "b"))[:40])
        faults = {
            ("--domain", "none", "Open"): 1,
            (*WORDS, "x!", "Open"): 1,
            (*WORDS, "fr", "--cldr", self.folder, "Open"): 1,
        }
        for words, status in faults.items():
            with self.subTest(words):
                self.assert_one_line(self.localise(*words), "localise: ", status=status)

    def test_a_refused_catalog_is_told_as_the_program_tells_it(self) -> None:
        faults = {
            "it": (mo(("a", "b"))[:40], "unxpected end of file"),
            "nl": (b"none".ljust(28, b"\0"), "bad magic number"),
            "pl": (mo(plural="nplurals=2; plural=EXPRESSION;"), "invalid plural expression"),
            "sv": (mo(("a", "b"), charset="KOI8-R"), "unknown encoding specified"),
        }
        for locale, (data, cause) in faults.items():
            path = self.write(f"locale/{locale}/LC_MESSAGES/files.mo", data)
            self.catalog(locale, "tools", ("Bye", "b"))
            ways = [
                (locale, "Open"), (locale, "--count", "2", "Open"), (locale, "--explain", "Open"),
                (locale, "--domain", "tools", "Bye"),
            ]
            for words in ways:
                with self.subTest(words):
                    done = self.localise(*WORDS, *words)
                    self.assert_one_line(done, f"localise: {path}: {cause}\n", status=6)
                    self.assertEqual(done.stdout, b"")

    def test_a_refused_catalog_is_told_though_another_answers(self) -> None:
        path = self.write("locale/fr/LC_MESSAGES/files.mo", b"none")
        done = self.localise(*WORDS, "fr_CA", "Hello %s")
        self.assert_one_line(done, f"localise: {path}: unxpected end of file\n", status=6)
        self.assertEqual(self.line(*WORDS, "es", "Hello %s"), "Hola %s\n")


class Words(InFolder):
    def test_a_word_that_is_no_text(self) -> None:
        done = run("localise", "--domain", "files", "\udcff")
        self.assert_one_line(done, "a word that isn't text", status=2)

    def test_faults_of_words(self) -> None:
        for words in ([], ["Open"], ["--domain", "files", "--plural", "P", "Open"],
                      ["--domain", "files", "--count", "-1", "Open"],
                      ["--domain", "files", "--count", str(1 << 64), "Open"]):
            with self.subTest(words):
                self.assert_one_line(run("localise", *words), "localise: ", status=2)

    def test_no_program(self) -> None:
        done = run("localise", "--program", self.folder / "none", "--domain", "files", "Open")
        self.assert_one_line(done, "no program at", "rt run")


if __name__ == "__main__":
    unittest.main()
