"""Places map back: each line in the map is the instruction that the compiler wrote, and the source place is that of the
debug line before it. qrev-place and editors/at-line give the line of a place in a session."""
import pathlib
import re
import subprocess
import sys
import tempfile

from .running import DATA, FOLDER, TOP, Results, Running, differ

REAL = DATA / "real"
STEPS = 400
LOCATION = re.compile(r"dbgloc (\d+), (\d+)")


def debug_lines(text: str) -> dict[int, str]:
    """For each line of a text that isn't empty, a comment or a debug line: the source place that holds there."""
    found, file, place = {}, "", ""
    for number, line in enumerate(text.split("\n"), 1):
        line = line.strip()
        location = LOCATION.match(line)
        if line.startswith("dbgfile "):
            file = line.split('"')[1]
        elif location:
            place = f"{file}:{location.group(1)}:{location.group(2)}"
        elif line.startswith("function "):
            found[number] = place = ""
        elif line and not line.startswith("#"):
            # A label has no place of its own.
            found[number] = "" if line.startswith("@") else place
    return found


def shape(line: str) -> tuple[str, ...]:
    """What an instruction is, however its numbers and its loads are written: its names and its labels."""
    return tuple(re.findall(r"[%@$][\w.$]+", line.split("#")[0]))


def session_fault(running: Running, path: pathlib.Path) -> str | None:
    """Goes through a program, and compares the instruction that comes next with the line that its place leads to."""
    with tempfile.TemporaryDirectory(prefix="lower-") as place:
        lowered, text = lower_to(running, path, place)
        script = "step\nlist\n" * STEPS
        run = running.run(lowered.read_text(), script, keeps_history=True)
        command = subprocess.run([sys.executable, str(FOLDER / "qrev-place"), str(lowered)], text=True,
                                 input="\n".join(run.lines) + "\n", capture_output=True, timeout=running.seconds)
    lines, sources = text.split("\n"), debug_lines(text)
    same = seen = 0
    origin = None
    for line in command.stdout.split("\n"):
        if line.startswith("#") and f"    {path}:" in line:
            number, _, rest = line.partition(f"    {path}:")[2].partition(": ")
            origin = int(number)
            if not rest.startswith(sources[origin]) or not rest.endswith(lines[origin - 1].strip()):
                return f"{line!r}, and the source is {sources[origin]} and the line {lines[origin - 1]!r}"
        elif line.startswith("> ") and origin is not None:
            seen += 1
            same += set(shape(lines[origin - 1])) & set(shape(line)) != set() or shape(line) == ()
    # What isn't the same are copies of aggregates, which lead to the line of the function.
    return None if seen > 20 and same > seen * 0.8 else f"{same} of {seen} instructions are those of their lines"


def lower_to(running: Running, path: pathlib.Path, place: str) -> tuple[pathlib.Path, str]:
    """Lowers a text into a folder; the path of what comes of it, and the text."""
    lowered = pathlib.Path(place) / "out.ssa"
    subprocess.run([sys.executable, str(FOLDER / "qrev-lower"), "--link", "--output", str(lowered), str(path)],
                   check=True, timeout=running.seconds)
    return lowered, path.read_text()


# Places of structval.ssa, worked out by hand: the line and the source place. The first two instructions of the first
# block are a copy of an aggregate.
PLACES = [
    ("#5 $main @body.3 0", 26, "ha/s/structval.ha:3:42", "%field.10 =l add %object.9, 0"),
    ("$main @body.3 8", 39, "ha/s/structval.ha:3:77", "%.7 =:type.8 call $add(:type.8 %object.9, :type.8 %object.11)"),
    ("#14 $add @start.25 1", 76, "", "function :type.8 $add(:type.8 %a, :type.8 %b) {"),
    ("#20 $add @body.26 4", 90, "ha/s/structval.ha:2:44", "%.33 =w loadsw %field.32"),
    ("#36 $main @failed.13 0", 65, "ha/s/structval.ha:3:109", "call $rt.abort_fixed(l $strliteral.0, l 3, l 88, l 6)"),
]


def place_fault(running: Running, words: list[str], place: str, line: int, source: str, text: str) -> str | None:
    path = REAL / "structval.ssa"
    with tempfile.TemporaryDirectory(prefix="lower-") as folder:
        lowered, _ = lower_to(running, path, folder)
        words = [word.format(place=place, program=lowered) for word in words]
        run = subprocess.run(words, capture_output=True, text=True, timeout=running.seconds)
    wanted = ": ".join(part for part in (f"{path}:{line}", source, text) if part) + "\n"
    return differ("place", (0, wanted), (run.returncode, run.stdout))


def at_line_fault(running: Running) -> str | None:
    """A lowered text that is refused, here since a line of it was spoiled, is shown by the line that was lowered."""
    path = REAL / "structval.ssa"
    with tempfile.TemporaryDirectory(prefix="lower-") as folder:
        lowered, _ = lower_to(running, path, folder)
        text = lowered.read_text()
        lowered.write_text(text.replace("%.33 =w loadsw %field.32", "%.33 =w loadsw %field.99"))
        run = subprocess.run([str(TOP / "editors" / "at-line"), "--qrev", running.program, str(lowered)],
                             capture_output=True, text=True, timeout=running.seconds)
    return differ("at-line", (1, f"{path}:90: C6: %.33 =w loadsw %field.32\n"), (run.returncode, run.stdout))


# The text of the string is on two lines.
TWO_BYTES = """# A comment.
dbgfile "p.c"
data $text = { b "one
two", b 0 }
export function w $main() {
@start
	dbgloc 3, 1
	%x =w call $puts(l $text)
	ret 0
}
"""


def line_end_fault(running: Running) -> str | None:
    """Lines that end in the bytes 13 and 10 are what they are with a newline alone, and the report counts them."""
    plain = running.lower({"a.ssa": TWO_BYTES}, "--link")
    ended = running.lower({"a.ssa": TWO_BYTES.replace("\n", "\r\n")}, "--link", "--report")
    return differ("the text", (0, plain.text, plain.map), (ended.status, ended.text, ended.map)) or \
        differ("the output", "one\ntwo\n", running.run(ended.text).output) or \
        differ("the place", "a.ssa\t8\tp.c\t3\t1", next(line for line in ended.map.split("\n") if "\t8\t" in line)) or \
        differ("the report", True, "10 line ends of two bytes, which QBE refuses\n" in ended.errors)


def results(running: Running) -> Results:
    yield "places/line ends of two bytes", line_end_fault(running)
    for name in ("list", "matrix", "structval", "tagged"):
        yield f"places/{name}", session_fault(running, REAL / f"{name}.ssa")
    for place, line, source, text in PLACES:
        yield f"places/{place}", place_fault(running,
                                             [str(TOP / "editors" / "at-line"), "--place", "{place}", "{program}"],
                                             place, line, source, text)
    yield "places/a refusal", at_line_fault(running)
