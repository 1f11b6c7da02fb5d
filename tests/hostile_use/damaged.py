"""Damaged sources through `check`, `analyse` and `run`, and damaged certificates through `check` and `analyse`.

Beside the form of each answer it is asked that the commands agree: on a refusal of the source; on the report, where
`check` reads what `analyse` wrote; and a fault that a run meets stands in each report on its source. What a certificate
is refused for before its claims are looked at is compared with the plain reader."""

import dataclasses
import json
import random
import re

from tests.built import CASES, ROOT, latin
from tests.hostile_use.answers import KINDS, alarms_of, faults_of, is_of_the_source
from tests.hostile_use.damage import OF_CERTIFICATES, OF_SOURCES, damaged
from tests.hostile_use.plain_certificates import refusal_of
from tests.hostile_use.trials import Folder, Tally
from tests.programs import case_of, rows

STEPS = "2000"
# a point stands in no name of a program's file, unless a literal has one
SOURCE, CERT = "s.cob", "c.cert"
OLD = b"what stood here before"
SAMPLES = ("first", "payroll", "orders", "orders_mended", "listing", *(f"water/step{number}" for number in range(1, 9)))
FALLBACK = b"00000012345 99" * 40


@dataclasses.dataclass
class Given:
    """A source with the files of its program, and the certificate that is known of it."""

    source: bytes
    files: dict
    certificate: bytes = b""
    fault: tuple | None = None
    shape: tuple | None = None
    is_known: bool = False


def sample_files(name):
    """The program's input: what the samples have of it, else some digits and blanks."""
    if name.startswith("water"):
        return {"METERS": (ROOT / "samples/water/METERS").read_bytes()}
    if name == "payroll":
        return {"PAYIN": (ROOT / "samples/PAYIN").read_bytes()}
    return {"INP": b"A" * 240, "ORDERS": FALLBACK[:54]}


def sampled():
    for name in SAMPLES:
        yield Given((ROOT / f"samples/{name}.cob").read_bytes(), sample_files(name))


def listed():
    """The sources of the cases, those that are long aside."""
    for subject, row in rows():
        files = latin(case_of(subject, row).files)
        source = files.pop("S")
        if len(source) < 20_000:
            yield Given(source, files)
    for name in ("analyses", "grammar", "profile", "rules", "checked"):
        for line in (CASES / f"{name}.jsonl").open():
            yield Given(json.loads(line)["source"].encode("latin-1"), {f"XF{number}": FALLBACK for number in range(3)})


def fault_of(answer):
    """The statement and kind of the fault that a run met."""
    match = re.fullmatch(r"E18 (\w+) statement ([0-9]+) step [0-9]+", answer.line()) if answer.status == 1 else None
    return (int(match[2]), KINDS.index(match[1])) if match else None


def faults_of_claims(fault, report):
    """A report with status 0 or 1 lists what a run met."""
    if fault and report.status in (0, 1) and fault not in [alarm[:2] for alarm in alarms_of(report.out) or ()]:
        yield f"a run meets {KINDS[fault[1]]} in statement {fault[0]}, which isn't reported"


def faults_of_files(answer, source):
    """`check` changes nothing, `analyse` CERT alone, and that only where it answers 0 or 1, and `run` files that the
    program names, if it opens one for output."""
    command = answer.words[0]
    plain = re.sub(rb"[^A-Z0-9]", b"", source.upper())
    for name, (_, now) in answer.changed.items():
        is_named = re.sub(rb"[^A-Z0-9]", b"", name.upper().encode()) in plain and b"OUTPUT" in plain
        if command == "analyse" and name == CERT and answer.status in (0, 1) and now is not None:
            continue
        if not (command == "run" and name not in (SOURCE, CERT) and is_named and now is not None):
            yield f"changes {name}"


class Damaged:
    """The sources and certificates to damage, and the tallies of what came of them."""

    def __init__(self, options, folder):
        self.random = random.Random(options.seed)
        self.folder = folder
        self.tally = None
        self.pools = [list(sampled()), list(listed())]

    def known(self, given):
        """With the certificate, the fault and the shape that the source has, where it isn't refused."""
        if given.is_known:
            return given
        given.is_known = True
        analysed, report = self.analysed(given)
        if analysed.status in (0, 1):
            given.certificate = report
            words = report.split(b"\n", 3)[1:3]
            given.shape = tuple(int(word.split(b" ")[1]) for word in words)
            self.put(given, given.certificate)
            given.fault = fault_of(self.folder.asked("run", SOURCE, "--steps", STEPS))
        return given

    def put(self, given, certificate):
        self.folder.put({**given.files, SOURCE: given.source, CERT: certificate})

    def analysed(self, given):
        self.put(given, OLD)
        answer = self.folder.asked("analyse", SOURCE, CERT)
        return answer, self.folder.known.get(CERT)

    def picked(self, is_right=lambda given: True):
        """One of the samples, or as often one of the cases' sources."""
        pool = self.random.choice(self.pools)
        return next(given for given in iter(lambda: self.known(self.random.choice(pool)), None) if is_right(given))

    def added(self, answer, given, faults=()):
        files = {**given.files, SOURCE: given.source, CERT: given.certificate}
        found = [*faults, *faults_of(answer), *faults_of_files(answer, given.source)]
        self.tally.add(answer, found, files)

    def source(self):
        """Tries a damaged source: an analysis, a check of what it wrote or of the old certificate, and a run. One in
        four may have been refused before."""
        origin = self.picked(lambda given: given.shape or not self.random.randrange(4))
        given = dataclasses.replace(origin, source=damaged(origin.source, self.random, OF_SOURCES))
        analysed, written = self.analysed(given)
        self.added(analysed, given)
        given.certificate = written if analysed.status in (0, 1) else origin.certificate
        self.put(given, given.certificate)
        checked = self.folder.asked("check", SOURCE, CERT)
        ran = self.folder.asked("run", SOURCE, "--steps", STEPS)
        self.added(checked, given, self.differences(analysed, checked))
        self.added(ran, given, [*self.differences(analysed, ran), *faults_of_claims(fault_of(ran), analysed)])

    @staticmethod
    def differences(analysed, other):
        """How the answer of another command to the same source doesn't go with that of `analyse`."""
        if (analysed.status, analysed.out) == (other.status, other.out):
            return
        if is_of_the_source(analysed) or is_of_the_source(other):
            yield f"analyse says {analysed.line()}"
        elif analysed.status in (0, 1) and other.words[0] == "check":
            yield f"of what analyse wrote with {analysed.out[-200:]!r}"

    def certificate(self):
        """Tries a damaged certificate: a check of it, and an analysis that writes over it."""
        origin = self.picked(lambda given: given.shape)
        text = damaged(origin.certificate, self.random, OF_CERTIFICATES)
        given = dataclasses.replace(origin, certificate=text)
        self.put(given, given.certificate)
        checked = self.folder.asked("check", SOURCE, CERT)
        analysed = self.folder.asked("analyse", SOURCE, CERT)
        self.added(checked, given, self.surprises(checked, given))
        is_whole = self.folder.known.get(CERT) == origin.certificate
        self.added(analysed, given, [] if is_whole else ["another certificate than before"])

    @staticmethod
    def surprises(checked, given):
        """What the plain reader says otherwise of a certificate, and a fault that an accepted one hides."""
        wanted = refusal_of(given.certificate, *given.shape)
        is_early = checked.line().startswith(("E12 ", "E13 ")) and checked.status == 3
        if (wanted or is_early) and checked.line() != wanted:
            yield f"in place of {wanted}"
        yield from faults_of_claims(given.fault, checked)

    def tried(self, options, name, trial):
        self.tally = Tally(name, options.keep, options.count)
        for _ in range(options.count):
            trial()
            self.tally.step()
        return self.tally


def sources(options):
    with Folder(options.program) as folder:
        damages = Damaged(options, folder)
        return [damages.tried(options, "damaged sources", damages.source)]


def certificates(options):
    with Folder(options.program) as folder:
        damages = Damaged(options, folder)
        return [damages.tried(options, "damaged certificates", damages.certificate)]
