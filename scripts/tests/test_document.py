"""scripts/document: what it writes, and what it says of bad input."""

import json
import os

from tests import support
from tests.support import PROGRAM, REGISTRY, STAND_IN, InFolder, mo, needs_program, run

REQUEST = {"tag": "fr-CA", "singular": "Hello %s", "plural": "Hello %s", "count": 1}


class Document(InFolder):
    def document(self, *words: object, given: bytes = b"", judge: object = STAND_IN):
        return run("document", "--program", judge, *words, given=given)

    def made(self, *words: object, given: bytes = b"", judge: object = STAND_IN) -> dict:
        done = self.document(*words, given=given, judge=judge)
        self.assertEqual(done.returncode, 0, done.stderr)
        return json.loads(done.stdout)

    def folder_words(self, *domains: str) -> list[object]:
        return ["--catalogs", support.locales(self), *(f"--domain={name}" for name in domains)]

    def test_nothing(self) -> None:
        self.assertEqual(self.made(), {"bundles": [], "requests": []})

    def test_one_domain_goes_in_as_it_is(self) -> None:
        made = self.made(*self.folder_words("files"))
        self.assertEqual([bundle["tag"] for bundle in made["bundles"]], ["es", "fr", "fr-CA"])
        path = self.folder / "locale/fr/LC_MESSAGES/files.mo"
        self.assertEqual(made["bundles"][1], {"tag": "fr", "mo": path.read_bytes().hex()})

    def test_locales_are_chosen(self) -> None:
        done = self.document(*self.folder_words("files"), "--locales", "fr_CA,de,fr.UTF-8")
        self.assertIn(b"de: no catalog", done.stderr)
        self.assertIn(b"fr.UTF-8: no catalog", done.stderr)
        bundles = json.loads(done.stdout)["bundles"]
        self.assertEqual([bundle["tag"] for bundle in bundles], ["fr-CA"])

    def test_requests_by_lines_and_by_list(self) -> None:
        lines = b"".join(json.dumps({**REQUEST, "count": n}).encode() + b"\n" for n in range(3))
        as_list = b"[" + lines.strip().replace(b"\n", b",\n") + b"]"
        path = self.write("requests", as_list)
        ways = [
            self.made(given=lines), self.made(given=as_list), self.made("--requests", path),
            self.made("--requests", "-", given=lines),
        ]
        for made in ways:
            self.assertEqual([request["count"] for request in made["requests"]], [0, 1, 2])

    def test_tables_and_lists(self) -> None:
        made = self.made(
            *self.folder_words("files"), "--cldr", support.cldr(self), "--list", "or",
            "--registry", self.write("registry", REGISTRY),
        )
        self.assertEqual(len(made["registry"]), 13)
        self.assertEqual(len(made["fallback"]), 4)
        self.assertEqual(made["root"]["end"], "{0} or {1}")
        lists = {bundle["tag"]: bundle["list"]["end"] for bundle in made["bundles"]}
        self.assertEqual(lists, {"es": "{0} o {1}", "fr": "{0} ou {1}", "fr-CA": "{0} ou {1}"})

    def test_names_of_one_tag_make_one_bundle(self) -> None:
        for name in ("sr@latin", "sr@Latn"):
            self.catalog(name, "files", (name, "x"))
        made = self.made(*self.folder_words("files"), "--locales", "sr@latin,sr@Latn")
        self.assertEqual([bundle["tag"] for bundle in made["bundles"]], ["sr-Latn"])

    def test_rules_that_differ(self) -> None:
        self.catalog("es", "tools", ("Bye", "Chao"), plural="nplurals=1; plural=0;")
        words = self.folder_words("files", "tools")
        done = self.document(*words)
        self.assert_one_line(done, "two plural rules", "es/LC_MESSAGES/files.mo", "tools.mo")
        done = self.document(*words, "--skip-faulty")
        self.assertEqual((done.returncode, done.stderr.count(b"left out")), (0, 1))

    def test_refused_catalogs_are_named(self) -> None:
        words = self.folder_words("files")
        # A file without room for a header is cut off before its magic is looked at.
        faults = {
            "it": (b"none".ljust(28, b"\0"), "bad magic number"),
            "nl": (b"none", "unxpected end of file"),
        }
        for locale, (data, _) in faults.items():
            self.write(f"locale/{locale}/LC_MESSAGES/files.mo", data)
        told = [f"{name}/LC_MESSAGES/files.mo: {cause}" for name, (_, cause) in faults.items()]
        self.assert_one_line(self.document(*words), *told, "--skip-faulty", status=6)
        done = self.document(*words, "--skip-faulty")
        tags = [bundle["tag"] for bundle in json.loads(done.stdout)["bundles"]]
        self.assertEqual((tags, done.stderr.count(b"left out")), (["es", "fr", "fr-CA"], 2))

    def test_faults_of_requests(self) -> None:
        good = json.dumps(REQUEST)
        path = self.write("requests", good + "\n\n" + good.replace("1}", '"1"}'))
        self.assert_one_line(
            self.document("--requests", path), f"{path} line 3: wrong shape: count", status=4
        )
        path = self.write("requests", f"[{good},\n{good[:-1]}]")
        self.assert_one_line(self.document("--requests", path), "not JSON", status=3)
        self.assert_one_line(self.document(given=b"{}\n{"), "standard input line 2: not JSON")

    def test_faults_of_words_and_files(self) -> None:
        locales = support.locales(self)
        faults = {
            ("--catalogs", locales): 2,
            ("--domain", "files"): 2,
            ("--no-such-word",): 2,
            ("--catalogs", locales, "--domain", "none"): 1,
            ("--catalogs", self.folder / "none", "--domain", "files"): 1,
            ("--catalogs", locales, "--domain", "files", "--locales", "de"): None,
            ("--catalogs", locales, "--domain", "files", "--locales", "x!"): 1,
            ("--cldr", self.folder): 1,
            ("--registry", self.folder / "none"): 1,
            ("--registry", self.folder): 1,
            ("--requests", self.folder / "none"): 1,
            ("--output", self.folder / "none" / "document"): 1,
            ("--program", self.folder / "none"): 1,
        }
        for words, status in faults.items():
            with self.subTest(words):
                done = self.document(*words)
                if status:
                    self.assert_one_line(done, "document: ", status=status)
                self.assertNotEqual(done.returncode, 0)
                self.assertEqual(done.stdout, b"")

    def test_an_output_is_whole_or_stays(self) -> None:
        path = self.write("document", "before")
        done = self.document("-o", path, given=b"{}\nnone")
        self.assertNotEqual(done.returncode, 0)
        self.assertEqual(path.read_text(), "before")
        self.assertEqual(os.listdir(self.folder), ["document"])
        self.document("-o", path)
        self.assertEqual(json.loads(path.read_text()), {"bundles": [], "requests": []})

    def test_a_document_may_be_too_large(self) -> None:
        line = json.dumps({**REQUEST, "context": "0" * 1_000_000}).encode() + b"\n"
        path = self.write("requests", line * 68)
        done = self.document("--unchecked", "--requests", path)
        self.assert_one_line(done, "67,108,864 bytes", "--any-size")
        done = self.document("--unchecked", "--any-size", "--requests", path)
        self.assertEqual(done.returncode, 0)


@needs_program
class DocumentByTheProgram(Document):
    """The same over the program, and what only it decides."""

    def document(self, *words: object, given: bytes = b"", judge: object = PROGRAM):
        return super().document(*words, given=given, judge=judge)

    def made(self, *words: object, given: bytes = b"", judge: object = PROGRAM) -> dict:
        return super().made(*words, given=given, judge=judge)

    def test_one_locale_twice(self) -> None:
        self.catalog("zh", "files", ("a", "b"))
        self.catalog("zh_Hans", "files", ("a", "c"))
        words = [*self.folder_words("files"), "--cldr", support.cldr(self)]
        self.assert_one_line(self.document(*words), "zh_Hans", "an earlier bundle", status=6)
        done = self.document(*words, "--skip-faulty")
        self.assertIn("zh", [bundle["tag"] for bundle in json.loads(done.stdout)["bundles"]])

    def test_every_fault_of_a_catalog_is_told(self) -> None:
        words = self.folder_words("files")
        faults = {
            "it": (mo(plural="nplurals=2; plural=EXPRESSION;"), "invalid plural expression"),
            "nl": (mo(("a", "b"))[:40], "unxpected end of file"),
            "sv": (mo(("a", "b"), charset="KOI8-R"), "unknown encoding specified"),
        }
        for locale, (data, _) in faults.items():
            self.write(f"locale/{locale}/LC_MESSAGES/files.mo", data)
        told = [cause for _, cause in faults.values()]
        self.assert_one_line(self.document(*words), *told, status=6)
