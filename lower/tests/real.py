"""The texts of a real front end: accepted as they come, and with the output of native code, forward, back to #0, and
forward again. Native code ends each of them with status 0 and writes nothing."""
from .running import DATA, Results, Running, differ

TEXTS = sorted((DATA / "real").glob("*.ssa"))
THERE_AND_BACK = "continue\nout\nreverse\ncontinue\nout\n"


def fault(running: Running, text: str) -> str | None:
    lowered = running.lower({"a.ssa": text}, "--link", "--report")
    if lowered.status:
        return f"status {lowered.status}: {lowered.errors[:200]}"
    if not lowered.errors:
        return "no report"
    run = running.run(lowered.text, THERE_AND_BACK, keeps_history=True)
    if len(run.lines) != 10 or run.lines[2] != "stop: end":
        return f"answers {run.lines}"
    there, back = run.lines[3], run.lines[6]
    if not there.endswith(" done") or run.lines[4] != 'out 0 ""':
        return f"ends at {run.lines[3:5]}"
    return differ("back", ["stop: start", run.lines[1]], run.lines[5:7]) or \
        differ("forward again", run.lines[2:5], run.lines[7:]) or \
        (None if back.startswith("#0 $main ") else f"back is at {back}")


def results(running: Running) -> Results:
    for path in TEXTS:
        yield f"real/{path.name}", fault(running, path.read_bytes().decode("latin-1"))
    yield "real/all of them", None if len(TEXTS) == 8 else f"{len(TEXTS)} texts"
