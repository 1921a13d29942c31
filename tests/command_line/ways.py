"""Ways to call the program that no case says: outputs that are full or closed, endless inputs, and calls that are compared."""

from __future__ import annotations

import json
import os
import re
import subprocess
import tempfile
from collections.abc import Iterator
from pathlib import Path

from made import ATTACH, ATTACH_LINES, COMPRESSED, ECHO, SCENARIO, compressed
from running import PROGRAM, SECONDS, Case, difference, run
from stored import decode, sent

MANY = 20000 * (ECHO + b"\n")
SERVING = (
    b'{"role":"serving","control":"10.0.0.1","user":"10.0.0.1","peer":{"control":"10.0.0.2","user":"10.0.0.2"},"counter":1}\n'
)
CODE = r"\b(?:H[0-9]|I[0-9]|U[0-9]+|G[0-9]|S[14]|B1|X[0-9]+|N[0-9])\b"
CAUSE = r"(?:answered|rejected) ([0-9]+)"
ROW = re.compile(r"^\| (G[0-9][^|]*|H[0-9]|U[0-9]+|) *\| [^|]*(?:\| (X[0-9]+))?", re.M)
FRAME = re.compile(r"^frame ([0-9]+) time [0-9]+\.0*([0-9]+) .* (control|user)$", re.M)
BRIEF = re.compile(r"^frame (\d+) time (\S+) from (.+) to (.+) \w+\ngtp\w+ type \d+ (.*)$", re.M)
# A name of a field; and what the page of elements says of a value without a form.
NAME, FORMLESS = r"[0-9a-z_][0-9a-z_-]*", {"value", "octets", "elements"}
FEWEST_CODES, CAUSES = 40, 82
SENDERS = [("0", "10.0.0.1"), ("1", "10.0.0.2"), ("3", "10.0.0.1"), ("5", "10.0.0.2")]


def text_of(*words: object, given: bytes = b"") -> str:
    """What the program writes."""
    return run(list(words), given).stdout.decode(errors="replace")


def unless(is_right: bool, found: object) -> str:
    """Nothing, or what was found in place of what is right."""
    return "" if is_right else f"found {found!r}"[:600]


# Outputs that are full or closed.


def full() -> Iterator[tuple[str, str]]:
    """A write that fails, since the device has no room."""
    for name, words, given in [
        ("a failed write", ["decode", ECHO], b""),
        ("a failed write of codes", ["explain"], b""),
        ("a failed write of a gateway", ["gateway"], SERVING),
        ("a failed write of a dump", ["decode", "-"], MANY),
        ("a failed write of a capture", ["capture", ATTACH], b""),
        ("a failed write of a report", ["replay", SCENARIO], b""),
    ]:
        with open("/dev/full", "wb") as device:
            done = run(words, given, stdout=device)
        yield name, difference(Case(name, status=3, error=b"write failed\n"), done.returncode, b"", done.stderr)


def closed() -> Iterator[tuple[str, str]]:
    """Whoever reads the output has closed it before the program begins."""
    forms = ["", "--diagram", "--svg", "--pcap", "--json"]
    for name, words, error in [
        ("a closed output of a capture", ["capture", ATTACH], b""),
        ("a closed output of codes", ["explain"], b""),
        ("a closed output of all of a word", ["decode", "--all", ECHO], b""),
        ("a closed output of a word as JSON", ["decode", "--json", ECHO], b""),
        ("a closed output of a word", ["decode", ECHO], b"write failed\n"),
        *((f"a closed output of replay {form}", ["replay", *filter(None, [form]), SCENARIO], b"write failed\n") for form in forms),
    ]:
        reader, writer = os.pipe()
        os.close(reader)
        done = run(words, stdout=writer)
        os.close(writer)
        yield name, difference(Case(name, status=3, error=error), done.returncode, b"", done.stderr)


def left() -> Iterator[tuple[str, str]]:
    """Whoever reads the output leaves after its first octet."""
    for name, words, given in [
        ("a closed output of a gateway", ["gateway"], SERVING + 40000 * b'{"do":"contexts"}\n'),
        ("a dump whose reader leaves", ["decode", "-"], MANY),
    ]:
        with tempfile.TemporaryFile() as file:
            file.write(given)
            file.seek(0)
            ends = {"stdin": file, "stdout": subprocess.PIPE, "stderr": subprocess.PIPE}
            with subprocess.Popen([PROGRAM, *words], bufsize=0, **ends) as process:
                process.stdout.read(1)
                process.stdout.close()
                error = process.stderr.read()
        yield name, difference(Case(name, status=3), process.returncode, b"", error)


def endless() -> Iterator[tuple[str, str]]:
    """A text that never ends."""
    case = Case("a text that never ends", status=2, output=b"bad json\n", error=b"gtpshow: standard input: more than 16777216 octets\n")
    with subprocess.Popen(["yes", " "], stdout=subprocess.PIPE) as text:
        done = subprocess.run([PROGRAM, "replay"], stdin=text.stdout, capture_output=True, timeout=SECONDS)
        text.kill()
    yield case.name, difference(case, done.returncode, done.stdout, done.stderr)


# Codes.


def codes_named() -> list[str]:
    """Each code that a page names, or that is in a stored report, line or conversation."""
    reports = [*Path("examples/scenarios").glob("*.report"), *Path("tests/scenarios").glob("*.report")]
    conversations = list(Path("tests/conversations").glob("*.json"))
    lines = [*(it for it in Path("tests/lines").glob("*") if it.is_file()), *Path("examples/datagrams").glob("*/*.lines")]
    found = {word for row in ROW.findall(Path("docs/PROTOCOL.md").read_text(encoding="utf-8")) for word in " ".join(row).split()}
    for file in [*reports, *conversations, *lines]:
        found |= set(re.findall(CODE, file.read_text(encoding="utf-8")))
    for file in [*reports, *conversations]:
        found |= set(re.findall(CAUSE, file.read_text(encoding="utf-8")))
    return sorted(found)


def codes() -> Iterator[tuple[str, str]]:
    """All codes, each once; and each that is named somewhere."""
    text, causes = text_of("explain"), text_of("explain", "cause").splitlines()
    heads = [line.partition(":")[0] for line in text.splitlines()]
    yield "all causes", unless(len(causes) == CAUSES and causes == re.findall("^cause.*", text, re.M), causes)
    yield "a code that is explained twice", unless(len(set(heads)) == len(heads), heads)
    names = codes_named()
    if len(names) < FEWEST_CODES:
        yield "codes that are named", unless(False, names)
    for name in names:
        is_told = re.search(rf"^([A-Z0-9]+ |cause )?{name}( [A-Z0-9]+)?: ", text, re.M)
        yield f"the code {name} is not explained", unless(is_told is not None, heads)


def types() -> Iterator[tuple[str, str]]:
    """Each type of the page of elements is explained by its name, its clause and the names of its fields."""
    parts = Path("docs/ELEMENTS.md").read_text(encoding="utf-8").split("\n## ")[1:]
    tables = dict(part.split("\n", 1) for part in parts)
    words = {"Elements": "element", "Messages": "message", "Extension headers": "extension"}
    for heading, word in words.items():
        part = tables[heading]
        clause = {"element": "TS 29.274 8.1", "message": "TS 29.274 6.1", "extension": "TS 29.281 5.2.1"}[word]
        for kind, name, *fields in (row.strip("| ").split(" | ") for row in re.findall(r"^\| [0-9a-f]+ \|.*", part, re.M)):
            head, _, told = text_of("explain", word, kind).partition("\n")
            wanted = set(re.findall(NAME, fields[0])) if fields else set()
            found = set(re.findall(NAME, told.removeprefix("fields")))
            is_right = head == f"{word} {kind}: {name} ({clause})" and (found == wanted or not told and wanted <= FORMLESS)
            yield f"the {word} {kind}", unless(is_right, (head, told))


# Dumps and captures.


def each_sent() -> Iterator[tuple[str, str]]:
    """The datagrams of a report, and the same one by one."""
    found = sent(text_of("replay", SCENARIO))
    wanted = "".join(f"datagram {number}\n{text_of(*decode(*it))}" for number, it in enumerate(found))
    dump = "".join(f"{plane} {digits}\n" for plane, digits in found)
    done = run(["decode", "-"], dump.encode())
    is_right = done.returncode == 0 and len(found) > 1 and done.stdout == wanted.encode()
    yield "the datagrams of a report", unless(is_right, done)


def in_place_of_dump(name: str, octets: bytes, wanted: str) -> tuple[str, str]:
    """Nothing is shown of octets as a dump, and the last line of standard error says what they are."""
    done = run(["decode", "-"], octets)
    is_right = done.returncode == 2 and not done.stdout and done.stderr.startswith(b"bad hex line ")
    last = done.stderr.splitlines(True)[-1:]
    return f"{name} in place of a dump", unless(is_right and last == [f"gtpshow: standard input {wanted}".encode()], done)


def no_dumps() -> Iterator[tuple[str, str]]:
    """Files that are no dumps."""
    yield in_place_of_dump("a compressed file", compressed(), COMPRESSED)
    for file in ATTACH, ATTACH.with_suffix(".pcapng"):
        yield in_place_of_dump(str(file), file.read_bytes(), "is a capture: 'capture' shows it\n")


def brief_of(line: str) -> str:
    """What a brief line says, by a line of JSON; what is none stays as it is."""
    try:
        it = json.loads(line)
    except ValueError:
        return line
    if "frames" in it:
        return " ".join(f"{key} {value}" for key, value in it.items())
    ends = [str(it[end][key]) for end in ("from", "to") for key in ("address", "port")]
    words = [str(word) for key in ("teid", "seq") if key in it for word in (key, it[key])]
    return " ".join([str(it["frame"]), it["time"], *ends, it["name"], *words])


def capture_as_json() -> Iterator[tuple[str, str]]:
    """Each line of JSON is read by a reader of its own, and says what the stored lines say of its frame."""
    text = ATTACH_LINES.read_text()
    wanted = [" ".join(it) for it in BRIEF.findall(text)] + text.splitlines()[-1:]
    done = run(["capture", "--json", ATTACH])
    found = [brief_of(line) for line in done.stdout.decode(errors="replace").splitlines()]
    yield "a capture as JSON", unless((done.returncode, done.stderr, found) == (0, b"", wanted), done)


# Scenarios.


def is_captured(scenario: Path, file: Path) -> bool:
    """Whether a run as a capture is shown as the datagrams of its report, in order, with a time for each."""
    report, capture = run(["replay", scenario]), run(["replay", "--pcap", scenario])
    file.write_bytes(capture.stdout)
    shown = run(["capture", file])
    lines, text = shown.stdout.decode(errors="replace"), report.stdout.decode(errors="replace")
    found = sent(text)
    dump = "".join(f"{plane} {digits}\n" for plane, digits in found).encode()
    frames = [(str(number + 1), str(number), plane) for number, (plane, _) in enumerate(found)]
    return (
        (capture.returncode, capture.stderr) == (report.returncode, b"")
        and shown.returncode <= 1
        and re.sub(r"^frames? .*\n", "", lines, flags=re.M) == re.sub(r"^datagram .*\n", "", text_of("decode", "-", given=dump), flags=re.M)
        and FRAME.findall(lines) == frames
    )


def runs_as_captures() -> Iterator[tuple[str, str]]:
    """Runs as captures; and who sent each datagram, and in which event, whose number the time of a frame has before the point."""
    with tempfile.TemporaryDirectory() as folder:
        file = Path(folder, "capture")
        for scenario in [*sorted(Path("examples/scenarios").glob("*.json")), *sorted(Path("tests/scenarios").glob("pair-*.json"))]:
            yield f"{scenario} as a capture", unless(is_captured(scenario, file), scenario)
        file.write_bytes(run(["replay", "--pcap", SCENARIO]).stdout)
        senders = re.findall(r"^frame \d+ time (\d+)\.\d+ from ([0-9.]+) ", text_of("capture", file), re.M)
    yield "who sent the datagrams of a capture", unless(senders == SENDERS, senders)


def scenario_of_help() -> Iterator[tuple[str, str]]:
    """The scenario that the help shows is one, and opens a session."""
    text = re.findall(r"^  \{.*?\}$", text_of("replay", "--help"), re.M | re.S)
    with tempfile.NamedTemporaryFile("w") as file:
        file.write("".join(f"{it}\n" for it in text))
        file.flush()
        done = run(["replay", file.name])
    yield "the scenario of the help", unless(done.returncode == 0 and b" opened\n" in done.stdout, done)


def cut_in_report() -> Iterator[tuple[str, str]]:
    """The report of a request that was cut, whose fault `decode` tells too."""
    text = Path("examples/scenarios/what-cannot-happen.report").read_text()
    yield "the report of a cut", unless("event 3 cut X1 H3" in text.splitlines(), text)


def results() -> Iterator[tuple[str, str]]:
    """The name of each case of this file, with what is wrong in it."""
    outputs, others = [full, closed, left], [endless, codes, types, each_sent, no_dumps, capture_as_json]
    for part in [*outputs, *others, runs_as_captures, scenario_of_help, cut_in_report]:
        yield from part()
