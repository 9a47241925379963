"""One message from the shell: the bundles of its locale's walk, its line, and who answered.

Which locales a walk visits, which catalogs are sound, which bundle answers and what is printed is
asked of the program, and no catalog is read here before it is known to be sound. To learn who
answers, it is given catalogs with the same rules that hold this message alone, each form's text
saying where it stands; its line then names the bundle and the form.
"""

from __future__ import annotations

from collections.abc import Sequence
from dataclasses import dataclass, replace
from pathlib import Path

from localisation import folder
from localisation.bundles import Bundle, PatternsOf, bundles_of, fault_of
from localisation.document import TAIL, Head, compact
from localisation.faults import Fault
from localisation.mo import catalog_of, file_of
from localisation.program import BUNDLE, DONE, REQUEST, Answer, Program
from localisation.refused import refused_of, unexpected

Request = dict[str, object]
# Counts below this are tried for a message without one.
MOST_COUNTS = 1_000
# The marks of forms begin with a character of private use, which no message's words do.
MARK = "\ue000"


@dataclass(frozen=True)
class Asked:
    """What the shell asks for."""

    message: str
    context: str | None = None
    count: int | None = None
    plural: str | None = None
    items: tuple[str, ...] = ()
    placeholder: str = "%s"

    def request(self, tag: str, count: int) -> Request:
        """The document's request. Without items no placeholder is replaced."""
        request: Request = {"tag": tag, "singular": self.message, "count": count}
        request["plural"] = self.message if self.plural is None else self.plural
        if self.context is not None:
            request["context"] = self.context
        if self.items:
            request |= {"placeholder": self.placeholder, "items": list(self.items)}
        return request


@dataclass(frozen=True)
class Walk:
    """The walk of a locale's name: its tag and its locales."""

    name: str
    tag: str
    locales: tuple[str, ...]


@dataclass(frozen=True)
class Chosen:
    """The locale whose bundle answers, and the number of the form."""

    locale: str
    form: int


@dataclass(frozen=True)
class Shell:
    """Asks the program about messages over the catalogs of a folder."""

    program: Program
    tables: Head
    catalogs: Path
    domains: Sequence[str]

    def walks(self, names: Sequence[str]) -> tuple[list[Walk], dict[str, list[str]]]:
        """The walks of names, and the names in the folder by the locale that they mean."""
        there = [name for name in folder.names_in(self.catalogs, self.domains) if _has_tag(name)]
        every = (*names, *there)
        tags = [folder.tag_of(name) for name in every]
        requests = [{"tag": tag, "singular": "", "plural": "", "count": 1} for tag in tags]
        answer = self._ask("walk", self.tables, requests)
        if answer.status == REQUEST and (fault := answer.numbered("request")):
            raise Fault(f"locale {every[fault[0]]}: {fault[1]}", REQUEST)
        if answer.status != DONE:
            raise unexpected(answer)
        lines = [tuple(line.split(" ")) for line in answer.lines.decode().splitlines()]
        by_locale: dict[str, list[str]] = {}
        for name, locales in zip(there, lines[len(names):]):
            by_locale.setdefault(locales[0], []).append(name)
        return [Walk(*each) for each in zip(names, tags, lines)], by_locale

    def bundles(
        self, walks: Sequence[Walk], by_locale: dict[str, list[str]], patterns_of: PatternsOf
    ) -> dict[str, Bundle]:
        """The bundles of the walks, by locale. All names of one locale make one bundle.

        Catalogs that the program refuses are a fault that names them, whoever answers.
        """
        visited = dict.fromkeys(locale for walk in walks for locale in walk.locales)
        wanted = [
            folder.Wanted(locale, tuple(names), tuple(paths))
            for locale in visited
            if (names := by_locale.get(locale))
            and (paths := list(folder.paths_of(self.catalogs, self.domains, names)))
        ]
        if refused := refused_of(self.program, [path for each in wanted for path in each.paths]):
            raise fault_of(refused)
        return {bundle.tag: bundle for bundle in bundles_of(wanted, patterns_of)}

    def chosen(self, bundles: dict[str, Bundle], request: Request) -> Chosen | None:
        """Who answers a request; none where its own words do."""
        bare = {name: request[name] for name in request if name not in ("items", "placeholder")}
        marks: dict[bytes, Chosen] = {}
        marked = [_marked(bundle, request, marks) for bundle in bundles.values()]
        head = replace(self.tables, root=None, bundles=marked)
        answer = self._sound(self._ask("render", head, [bare]), head, request)
        return marks.get(answer.lines)

    def line(self, bundles: dict[str, Bundle], request: Request) -> bytes:
        """The request's line."""
        head = replace(self.tables, bundles=list(bundles.values()))
        return self._sound(self._ask("render", head, [request]), head, request).lines

    def _ask(self, word: str, head: Head, requests: Sequence[Request]) -> Answer:
        body = ",".join(compact(request) for request in requests).encode()
        return self.program.answer(word, [*head.pieces(), body, TAIL])

    def _sound(self, answer: Answer, head: Head, request: Request) -> Answer:
        """An answer that is Done; a fault names the catalog or the locale."""
        if answer.status == DONE:
            return answer
        bundle, refused = answer.numbered("bundle"), answer.numbered("request")
        if answer.status == BUNDLE and bundle:
            raise Fault(f"{head.bundles[bundle[0]].name}: {bundle[1]}", BUNDLE)
        if answer.status == REQUEST and refused:
            raise Fault(f"locale {request['tag']}: {refused[1]}", REQUEST)
        raise unexpected(answer)


def _has_tag(name: str) -> bool:
    try:
        return bool(folder.tag_of(name))
    except Fault:
        return False


def _marked(bundle: Bundle, request: Request, marks: dict[bytes, Chosen]) -> Bundle:
    """The bundle with the request's message alone, its forms being marks."""
    catalog = catalog_of(bundle.name, bundle.mo)
    messages = []
    for message in catalog.messages:
        if message.key == (request.get("context"), request["singular"]):
            forms = [f"{MARK}{bundle.tag} {number}" for number in range(len(message.forms))]
            marks |= {
                f"{form}\n".encode(): Chosen(bundle.tag, number)
                for number, form in enumerate(forms)
            }
            messages.append(replace(message, forms=tuple(forms)))
    return replace(bundle, mo=file_of(catalog.header, messages), patterns=None)


def count_for(bundles: dict[str, Bundle]) -> int:
    """The count that stands for none: 1, or the least for which each rule gives form 0.

    A message without a plural has one form, and a language may give 1 another than the first.
    """
    rules = [catalog_of(each.name, each.mo).forms_by for each in bundles.values()]
    counts = [1, *range(MOST_COUNTS)]
    return next((n for n in counts if all(rule.form(n) == 0 for rule in rules)), 1)


def explained(walk: Walk, bundles: dict[str, Bundle], chosen: Chosen | None) -> list[str]:
    """A line for each locale of a walk: its bundle, and what came of it."""
    lines, reached = [], True
    for locale in walk.locales:
        bundle = bundles.get(locale)
        if not reached:
            told = "not reached"
        elif bundle is None:
            told = "no bundle"
        elif chosen and chosen.locale == locale:
            told, reached = f"form {chosen.form} of {bundle.name}", False
        else:
            told = f"no form for the count in {bundle.name}"
        lines.append(f"{locale}: {told}")
    return lines + ([] if chosen else ["own words"])
