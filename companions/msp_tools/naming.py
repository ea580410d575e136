"""Names of classes as people write them: in LaTeX, with blanks, in the words of books, with any fixed number of machines.

`meaning_of` reads a text. It answers the classes that are meant, or raises a `Misfit` that says which part was not understood: never
another class than the one that was asked for. docs/results/names.csv has texts with what each means; the page of all classes reads them
by the same rules.
"""
from __future__ import annotations

import difflib
import re
from dataclasses import dataclass, replace
from typing import Iterable, Mapping, Sequence

from .classes import CRITERIA, ENVIRONMENTS, ITEMS, MACHINES, PRECEDENCE, SPELLINGS, ClassName, class_named
from .faults import Misfit

NAME = "a name has three parts with two bars, as '1|prec|Lmax' (in quotes)"
KINDS = {"one": "1", "single": "1", "identical": "P", "parallel": "P", "uniform": "Q", "unrelated": "R", "open-shop": "O",
         "flow-shop": "F", "job-shop": "J", "openshop": "O", "flowshop": "F", "jobshop": "J"}
# (without blanks, hyphens and signs of LaTeX)
CRITERIA_IN_WORDS = {
    "makespan": "Cmax", "maximumcompletiontime": "Cmax", "schedulelength": "Cmax", "lateness": "Lmax", "maximumlateness": "Lmax",
    "maxlateness": "Lmax", "maximumcost": "fmax", "greatestcost": "fmax", "hmax": "fmax", "completiontimes": "sumC",
    "totalcompletiontime": "sumC", "sumofcompletiontimes": "sumC", "flowtime": "sumC", "meanflowtime": "sumC", "totalflowtime": "sumC",
    "sumflowtime": "sumC", "weightedcompletiontimes": "sumwC", "totalweightedcompletiontime": "sumwC",
    "weightedsumofcompletiontimes": "sumwC", "weightedflowtime": "sumwC", "latejobs": "sumU", "numberoflatejobs": "sumU", "tardyjobs": "sumU",
    "numberoftardyjobs": "sumU", "weightedlatejobs": "sumwU", "weightednumberoflatejobs": "sumwU", "weightednumberoftardyjobs": "sumwU",
    "tardiness": "sumT", "totaltardiness": "sumT", "weightedtardiness": "sumwT", "totalweightedtardiness": "sumwT"}
ITEMS_IN_WORDS = {
    **dict.fromkeys(("prmp", "prmt", "preempt", "preemption", "preemptions", "preemptive", "cut"), "pmtn"),
    "chain": "chains", "in-tree": "intree", "out-tree": "outtree", "trees": "tree",
    "inforest": "intree", "in-forest": "intree", "outforest": "outtree", "out-forest": "outtree",
    **dict.fromkeys(("acyclic", "\\prec", "≺", "precedence", "precedenceconstraints"), "prec"),
    **dict.fromkeys(("r_j", "rj", "r_i", "ri", "r_j>=0", "heads", "releasedates", "releasetimes", "readytimes"), "r"),
    **dict.fromkeys(("uet", "unittimes", "unitprocessingtimes", "unitjobs"), "p=1"),
    **dict.fromkeys(("equaltimes", "equalprocessingtimes", "equaljobs"), "p=p"),
    **{f"p{at}={time}": f"p={time}" for at in ("_j", "j", "_ij", "ij", "_i", "i") for time in "1p"},
    **dict.fromkeys(("perm", "permu", "permutation"), "prmu"),
    **{f"{letter}{at}<=2": "n<=2" for letter in "nmo" for at in ("", "_j", "j", "_i", "i") if letter + at != "m"}}
NO_ITEM = ("", "-", "–", "—", ".", "°", "·", "•", "o", "∘", "∅", "\\circ", "\\cdot", "\\emptyset")
UNCUT = ("uncut", *(f"{no}{at}{word}" for no in ("no", "non") for at in ("", "-") for word in ("pmtn", "preemption", "preemptive")))
TREES = ("intree", "outtree")
# What other notations have and this one has not, by a pattern of the whole part.
DEADLINES = "deadlines are no item: each job meets its deadline where Lmax is at most 0"
NOT_HERE = (
    (r"sp-?graph|series-parallel|opp.*forest", "other kinds of precedence have no name here: prec is the next wider one"),
    (r"\\?(bar|tilde|overline)d_?[ij]?|d_?[ij]?", DEADLINES),
    (r"[ps]?-?batch.*|batch.*", "batching is left out"),
    (r"no-?wait|nwt|no-?idle|block(ing)?", "waiting between operations is free here: no-wait and blocking are left out"),
    (r"(size|fix|set)_?[ij]?|any", "a job runs on one machine at a time: jobs on several machines are left out"),
    (r"s_?(i|j|k|f|g|ij|jk|ijk|fg)|st_?(si|sd).*|setup.*", "setup times are left out"),
    (r"m_?[ij]", "each machine can run each job: machines that may not are left out"),
    (r"n=.*", "a fixed number of jobs has no name (n<=2 bounds the operations of a job)"),
    (r"m(=|<=).*", "a number of machines stands in the environment, as P2"),
    (r"prmu|perm(utation)?", "permutation schedules are all that is needed in F2 without release dates, precedence and pmtn, "
                             "and no item elsewhere"),
    (r"on-?line.*|brkdwn|rcrc|l_?[ij]?|nr-?a", "it is left out"),
    (r"p(_?i?j)?(∈|\\in|<=).*", "times are arbitrary, equal (p=p) or 1 (p=1)"))
ENVIRONMENTS_NOT_HERE = (
    (r"F[FH].*|HF.*", "hybrid flow shops are left out"), (r"[PQOFJ]MPM|MPM.*|FJ.*", "multi-purpose machines and flexible shops are left out"),
    (r"[PQROFJ]0*[01]", "one machine is 1"), (r"[0-9]+", "the number of machines stands behind their kind, as P4"))
CRITERIA_NOT_HERE = (
    (r"T_?max", "Lmax decides it, since Tmax is the greater of 0 and Lmax"),
    (r"F_?max", "the greatest flow time is Lmax with each due date at the release date; fmax, the greatest of any costs, has a small letter"),
    (r"sumw?f.*", "sums of any functions have no name: fmax is their greatest value"),
    (r".*\^.*", "powers are left out"), (r".*E.*", "earliness is left out: no criterion falls as jobs end later"),
    (r".*,.*", "one criterion alone has a name"))


@dataclass(frozen=True)
class Variant:
    """A class for which a name stands: with a number of machines where the name says any fixed one, with a kind of tree where it says tree."""
    kind: ClassName
    machines: int | None
    tree: str | None

    def goes_with(self, other: Variant) -> bool:
        """Whether two variants are of one number of machines and one kind of tree, as far as both have some."""
        pairs = ((self.machines, other.machines), (self.tree, other.tree))
        return all(one is None or it is None or one == it for one, it in pairs)


def known_of_a_fixed_number(kind: ClassName, labels: Mapping[str, str]) -> tuple[str, str]:
    """What is known of a class (with the number of machines in the input) for each fixed number above those that have names, and why.

    The verdict is easy, strong, hard or unknown.
    """
    wide, below = str(kind), replace(kind, environment=greatest_fixed(kind.kind))
    if labels[wide] == "easy":
        return "easy", f"{wide} is easy, which has the number of machines in the input"
    hard = {"strong": "strong", "hard": "hard", "weak": "hard"}.get(labels[str(below)])
    if hard and kind.kind == "J":
        return hard, f"{below} is {labels[str(below)]}, and a job needs no operation on the machines above"
    if hard and kind.kind in "OF" and kind.general:
        return hard, f"{below} is {labels[str(below)]}, and operations on the machines above may take no time"
    return "unknown", (f"no reduction leads to this number of machines: {below} is {labels[str(below)]}, and {wide}, which has the number "
                       f"in the input, is {labels[wide]}")


def greatest_fixed(kind: str) -> str:
    """The environment of a kind with the greatest number of machines that has a name: P3, Q2, ..."""
    return max((it for it in MACHINES if it[0] == kind), key=MACHINES.__getitem__)


@dataclass(frozen=True)
class Meaning:
    """What a name as people write it means: the name, and the classes for which it stands, mostly one.

    With `beyond`, a number of machines above those that have names, it stands for no class: `variants` has the class with the number of
    machines in the input alone.
    """
    name: str
    variants: tuple[Variant, ...]
    beyond: int | None = None

    @property
    def classes(self) -> list[ClassName]:
        """The classes for which the name stands; for a number of machines beyond those with names, its two neighbours."""
        if self.beyond is None:
            return [it.kind for it in self.variants]
        wide = [it.kind for it in self.variants]
        return [replace(it, environment=greatest_fixed(it.kind)) for it in wide] + wide

    @property
    def single(self) -> bool:
        """Whether the name is that of a class of the program."""
        return self.beyond is None and len(self.variants) == 1 and self.name == str(self.variants[0].kind)

    @property
    def with_input(self) -> list[ClassName]:
        """Those classes with the number of machines in the input, each once; none where the name says no fixed number."""
        found = [replace(it.kind, environment=it.kind.kind) for it in self.variants if it.machines or self.beyond]
        return list(dict.fromkeys(found))

    def lines(self, labels: Mapping[str, str]) -> list[str]:
        """What the labels (by the names of classes) say of a name that stands for several classes, or for a fixed number of machines."""
        if self.single:
            return []
        if self.beyond is not None:
            lines = [f"name {self.name}"]
            for kind in self.with_input:
                verdict, why = known_of_a_fixed_number(kind, labels)
                here = " here" if verdict == "unknown" else ""
                lines += [f"is {kind.environment}{self.beyond}|{','.join(kind.items)}|{kind.criterion} {verdict}{here}", why]
            return lines
        lines = [f"name {self.name}", *(f"is {it} {labels[str(it)]}" for it in self.classes)]
        for wide in self.with_input:
            numbers = " and ".join(str(it.machines) for it in self.variants
                                   if it.machines and replace(it.kind, environment=it.kind.kind) == wide)
            verdict, why = known_of_a_fixed_number(wide, labels)
            lines.append(f"{verdict} for every fixed number of machines: {why}" if verdict == "easy" else
                         f"known here for {numbers} machines; above, {verdict}: {why}")
        return lines


def refused(text: str, part: str, why: str) -> Misfit:
    """The misfit of a name whose part is not understood."""
    return Misfit(f"{text} is no class: {part or 'an empty part'} is not understood: {why}")


def near(word: str, known: Iterable[str]) -> str | None:
    """The known word that is meant where a letter or two are wrong; None where several are as near, and for words with other signs."""
    def signs(text: str) -> str:
        return re.sub("[a-z]", "", text)

    def nearness(other: str) -> float:
        return difflib.SequenceMatcher(None, word.lower(), other).ratio()

    lower = {it.lower(): it for it in known}
    found = sorted((it for it in lower if signs(it) == signs(word.lower()) and nearness(it) >= 0.75), key=nearness, reverse=True)
    if not found or len(word) < 3 or (len(found) > 1 and nearness(found[0]) == nearness(found[1])):
        return None
    return lower[found[0]]


def without_latex(text: str) -> str:
    """A text without the blanks, dollars and braces of LaTeX that say nothing, and with bars for all signs that stand for them."""
    plain = re.sub(r"\\[,;:! ]|~|\\q?quad(?![A-Za-z])|\\thinspace(?![A-Za-z])|\\[()\[\]]|\$", " ", text)
    plain = re.sub(r"‖|\\\||\\parallel(?![A-Za-z])", "||", plain)
    return re.sub(r"\\(mid|vert|lvert|rvert)(?![A-Za-z])|[∣｜│]", "|", plain)


def parts_of(text: str) -> list[str]:
    """The three parts of a name, as they stand in the text, or a misfit."""
    plain = without_latex(text)
    bars = plain if "|" in plain else plain.replace("/", "|")
    parts = [it.strip() for it in bars.split("|")]
    if len(parts) != 3:
        raise refused(text, text, NAME)
    return parts


def letters_of(part: str) -> str:
    """A part without fonts, braces and blanks, its signs in letters."""
    plain = re.sub(r"\\(mathrm|mathit|mathsf|text|textrm|textit|operatorname|rm|it|sf)(?![A-Za-z])", "", part)
    plain = re.sub(r"\\max(?![A-Za-z])", "max", plain)
    plain = re.sub(r"\\(leqslant|leq|le)(?![A-Za-z])|≤", "<=", re.sub(r"\\(geqslant|geq|ge)(?![A-Za-z])|≥", ">=", plain))
    return re.sub(r"[\s{}]", "", plain)


def items_in(part: str) -> list[str]:
    """The items of a part as they stand there: commas and semicolons in braces part nothing."""
    found, depth, start = [], 0, 0
    for at, sign in enumerate(part):
        depth += (sign in "{(") - (sign in "})")
        if sign in ",;" and depth == 0:
            found.append(part[start:at])
            start = at + 1
    return [it.strip() for it in (*found, part[start:])]


def said_of(word: str, patterns: Sequence[tuple[str, str]], known: Sequence[str]) -> str:
    """What is said of a word that is not understood: what it means elsewhere, the known word that is near, or which words there are."""
    for pattern, why in patterns:
        if re.fullmatch(pattern, word, re.I if patterns is NOT_HERE else 0):
            return why
    meant = near(word, known)
    return f"is {meant} meant?" if meant else f"it is one of {' '.join(dict.fromkeys(SPELLINGS.get(it, it) for it in known))}"


def criterion_of(text: str, part: str) -> str:
    """A criterion by its letters: subscripts and limits of sums go, words are looked up."""
    plain = re.sub(r"\\(sum|Sigma)(?![A-Za-z])|Σ|∑", "sum", re.sub(r"\\(no)?limits(?![A-Za-z])|\*", "", part))
    plain = re.sub(r"^\s*\\?min(imi[sz]e)?(?![a-z])", "", plain)
    plain = re.sub(r"\\(bar|overline)\s*\{?\s*F\s*\}?|F[\u0304\u0305]", "flowtime", plain)
    plain = re.sub(r"(?<=sum)\s*(_\{[^{}]*\}|_\w(?=.*\w))?\s*(\^\{[^{}]*\}|\^\w)?", "", plain, count=1) if re.match(r"\s*sum", plain, re.I) else plain
    plain = letters_of(plain)
    word = re.sub(r"[-_\\]", "", plain).lower()
    if word in CRITERIA_IN_WORDS:
        return CRITERIA_IN_WORDS[word]
    plain = re.sub(r"[_\\]", "", plain)
    if re.match("Fmax", plain):
        raise refused(text, part, said_of(plain, CRITERIA_NOT_HERE, CRITERIA))
    short = re.sub(r"^(sum)(w?)[ji]?([CUT])[ji]?$", r"\1\2\3", plain, flags=re.I)
    found = next((it for it in CRITERIA if it.lower() == short.lower()), None)
    if found is None:
        raise refused(text, part, said_of(plain, CRITERIA_NOT_HERE, CRITERIA))
    return found


def item_of(text: str, part: str) -> str:
    """An item by its letters; tree stays as it is."""
    plain = letters_of(part)
    word = ITEMS_IN_WORDS.get(plain.lower(), plain)
    found = next((it for it in (*ITEMS, "tree", "prmu") if it.lower() == SPELLINGS.get(word, word).lower()), None)
    if found is None:
        raise refused(text, part, said_of(plain, NOT_HERE, [*ITEMS, *SPELLINGS]))
    return found


def environments_of(text: str, part: str) -> tuple[str, list[str], int | None]:
    """The environment as it is said, those of the notation for which it stands, and the number of machines beyond these."""
    plain = letters_of(part).replace("_", "")
    said = plain[:1].upper() + plain[1:]
    if said in ENVIRONMENTS:
        return said, [said], None
    if re.fullmatch("[PQROFJ]m", said):
        return said, [it for it in ENVIRONMENTS if it[0] == said[0] and it in MACHINES], None
    if re.fullmatch("[PQROFJ][1-9][0-9]*", said) and int(said[1:]) > MACHINES[greatest_fixed(said[0])]:
        return said, [said[0]], int(said[1:])
    why = next((why for pattern, why in ENVIRONMENTS_NOT_HERE if re.fullmatch(pattern, said)),
               f"an environment is one of {' '.join(ENVIRONMENTS)}, or has another number of machines behind its letter")
    raise refused(text, part, why)


def class_with(text: str, environment: str, items: Sequence[tuple[str, str]], criterion: str) -> ClassName:
    """The class of parts that are understood, or a misfit that names the item which does not go with those before it."""
    for count, (part, _) in enumerate(items, 1):
        if class_named(f"{environment}|{','.join(word for _, word in items[:count])}|{criterion}") is None:
            raise refused(text, part, "items go together with at most one of chains, intree, outtree and prec, one of p=1 and p=p, "
                                      "n<=2 on J alone, and each once")
    found = class_named(f"{environment}|{','.join(word for _, word in items)}|{criterion}")
    if found is None:
        raise refused(text, environment, NAME)
    return found


def without_prmu(text: str, environments: Sequence[str], items: Sequence[tuple[str, str]]) -> list[tuple[str, str]]:
    """The items without prmu, which says nothing in F2 where no release dates, precedence or cuts are; elsewhere a misfit."""
    words = [word for _, word in items]
    if "prmu" in words and (list(environments) != ["F2"] or any(it in words for it in ("r", "pmtn", "tree", *PRECEDENCE))):
        raise refused(text, next(part for part, word in items if word == "prmu"), said_of("prmu", NOT_HERE, ITEMS))
    return [it for it in items if it[1] != "prmu"]


def items_of(text: str, field: str) -> list[tuple[str, str]]:
    """The items of a field that says some, each as it stands there and by its word; one that allows no preemption says nothing beside others."""
    parts = [it for it in items_in(field) if letters_of(it) not in NO_ITEM]
    uncut = next((it for it in parts if letters_of(it).lower() in UNCUT), None)
    found = [(it, item_of(text, it)) for it in parts if letters_of(it).lower() not in UNCUT]
    if uncut and any(word == "pmtn" for _, word in found):
        raise refused(text, uncut, "it does not go with pmtn")
    return found


def variants_of(text: str, said: str, environments: Sequence[str], items: Sequence[tuple[str, str]], criterion: str) -> list[Variant]:
    """The classes for which the parts of a name stand: one for each environment and each kind of tree."""
    trees: tuple[str | None, ...] = TREES if any(word == "tree" for _, word in items) else (None,)
    found = []
    for environment in environments:
        for tree in trees:
            kind = class_with(text, environment, [(part, tree if tree and word == "tree" else word) for part, word in items], criterion)
            found.append(Variant(kind, kind.machines if said[1:] == "m" else None, tree))
    return found


def meaning_of(text: str) -> Meaning:
    """What a name in the spellings of docs/notation.md means, or a misfit that says which part is not understood."""
    environment, middle, last = parts_of(text)
    said, environments, beyond = environments_of(text, environment)
    items = without_prmu(text, environments, items_of(text, middle))
    variants = variants_of(text, said, environments, items, criterion_of(text, last))
    first = variants[0].kind
    words = ",".join("tree" if it in TREES and variants[0].tree else it for it in first.items)
    return Meaning(f"{first.environment if said in ENVIRONMENTS else said}|{words}|{first.criterion}", tuple(variants), beyond)


def meaning_in_words(environment: str, items: Sequence[str], criterion: str) -> Meaning:
    """What a kind of machines, items and a criterion mean, each as a word or as in a name."""
    said = environment.strip()
    return meaning_of(f"{KINDS.get(said.lower().replace(' ', '-'), said)}|{','.join(items)}|{criterion}")


def equal_times(kind: ClassName) -> ClassName:
    """The class with equal times in the place of unit ones on uniform machines, where books let speeds be any numbers; others as they are."""
    return replace(kind, items=tuple("p=p" if it == "p=1" and kind.kind == "Q" else it for it in kind.items))


def speeds_note(kind: ClassName, labels: Mapping[str, str]) -> list[str]:
    """What is to be said of unit times on uniform machines, where the class of books, with any speeds, has another label."""
    other = equal_times(kind)
    if labels[str(kind)] == labels[str(other)]:
        return []
    return [f"p=1 is read here with whole speeds; with any speeds, as in books, {kind} is {other}, {labels[str(other)]}"]


def class_of(text: str) -> ClassName:
    """The class of a name in the program's own spellings, or a misfit that says what is meant, or which part is not understood."""
    found = class_named(text)
    if found:
        return found
    means = meaning_of(text)
    if means.beyond is None and len(means.variants) == 1:
        raise Misfit(f"{text} is no class: is '{means.variants[0].kind}' meant?")
    raise Misfit(f"{text} is no class: it stands for {' and '.join(map(str, means.classes))}")


def beyond_names(text: str, means: Meaning) -> str:
    """That a number of machines has no name, and which classes stand beside it."""
    beside = (f"{replace(wide, environment=greatest_fixed(wide.kind))} has the greatest fixed number, and {wide} the number in the input"
              for wide in means.with_input)
    return f"{text} is no class: none has {means.beyond} machines: {'; '.join(beside)}"


def named_by(text: str) -> Meaning:
    """What a name means that stands for classes: also refused is a fixed number of machines for which no class has a name."""
    means = meaning_of(text)
    if means.beyond is None:
        return means
    raise Misfit(beyond_names(text, means))
