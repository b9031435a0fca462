"""The report of all tests: as text, as JSON, as JUnit XML for build servers, and as a page."""

import html
import json
import pathlib
import statistics
from collections.abc import Iterator
from dataclasses import dataclass, field
from typing import Any
from xml.sax.saxutils import escape, quoteattr

from ..shared import files
from ..shared.fault import Fault
from ..shared.saying import visible
from ..shared.version import VERSION
from .device import Counts
from .load import Loaded
from .sentences import at
from .testing import DIFFER, PASS, UNKNOWN, Result

OUTCOMES = (PASS, DIFFER, UNKNOWN)
PICTURES = (".svg", ".png", ".pdf")


@dataclass
class Report:
    """All results of a device at an address: what answered, how, and the words about the whole."""

    where: str
    program: str
    results: list[Result] = field(default_factory=list)
    counts: Counts = field(default_factory=Counts)
    notes: list[str] = field(default_factory=list)
    load: Loaded | None = None

    def count(self, outcome: str) -> int:
        """Returns how many tests have an outcome."""
        return sum(it.outcome == outcome for it in self.results)

    def differs(self) -> bool:
        """Tells whether a test differs, or the load changed the plan."""
        return self.count(DIFFER) > 0 or self.load is not None and self.load.is_wrong()


def parting_words(result: Result) -> str:
    """Returns when both sides differ for the first time."""
    parting = result.compared.parting if result.compared else None
    return f"first difference at {at(parting.last)}" if parting else ""


def why(result: Result) -> list[str]:
    """Returns the reasons of a result, a line each."""
    first = [parting_words(result)] if parting_words(result) else []
    found = [*first, *result.words, *(f"unsafe: {it}" for it in result.breaches)]
    return [visible(it) for it in found]


def summary(report: Report) -> str:
    """Returns the results in one line."""
    count = len(report.results)
    return f"{count} test{'s'[: count != 1]}: " + ", ".join(f"{report.count(it)} {it}" for it in OUTCOMES)


def timing(counts: Counts) -> str:
    """Returns how fast the device answered."""
    if not counts.seconds:
        return "no answers"
    ordered = sorted(1000 * it for it in counts.seconds)
    late = ordered[int(0.95 * (len(ordered) - 1))]
    return (
        f"{counts.answered} answers: half of them within {statistics.median(ordered):.1f} ms, 95% within {late:.1f} "
        f"ms, the last after {ordered[-1]:.1f} ms"
    )


def text_lines(report: Report) -> Iterator[str]:
    """Yields the report as text."""
    yield f"device {report.where}, compared with {report.program}"
    yield from report.notes
    subject = ""
    for it in report.results:
        if it.script.subject != subject:
            subject = it.script.subject
            yield f"{subject}"
        yield f"  {it.outcome:10} {it.script.name}: {it.script.shows}"
        for line in why(it):
            yield f"             {line}"
    yield timing(report.counts)
    yield from report.counts.words()
    if report.load is not None:
        yield from report.load.words()
    yield summary(report)


# JSON


def result_json(result: Result) -> dict[str, Any]:
    """Returns a result as JSON."""
    parting = result.compared.parting if result.compared else None
    found: dict[str, Any] = {
        "name": result.script.name, "subject": result.script.subject, "shows": result.script.shows,
        "outcome": result.outcome, "words": result.words, "unsafe": result.breaches,
        "seconds": round(result.seconds, 3),
    }  # fmt: skip
    if parting is not None and result.compared is not None and result.driven is not None:
        from .driving import LEAD
        from .expected import START

        shown = result.driven.samples[parting.place].display
        frame = result.compared.expected.at(START + parting.last)
        found["first_difference"] = {
            "tick": parting.last - LEAD,
            "device": {"vehicles": shown.vehicles, "pedestrians": shown.pedestrians, "pattern": shown.pattern},
            "expected": {
                "vehicles": frame.vehicles, "pedestrians": frame.pedestrians, "mode": frame.mode,
            },
        }  # fmt: skip
    return found


def as_json(report: Report) -> dict[str, Any]:
    """Returns the report as JSON."""
    counts = report.counts
    return {
        "device": report.where, "program": report.program, "arterial": VERSION, "notes": report.notes,
        "totals": {it: report.count(it) for it in OUTCOMES},
        "answers": {
            "asked": counts.asked, "answered": counts.answered, "unanswered": counts.unanswered, "late": counts.late,
            "twice": counts.twice, "malformed": counts.malformed, "stray": counts.stray,
        },
        "load": report.load.as_json() if report.load else None,
        "tests": [result_json(it) for it in report.results],
    }  # fmt: skip


# JUnit


def case_xml(where: str, it: Result) -> Iterator[str]:
    """Yields a test as a case of JUnit: a difference is a failure; a test that the device can't do is
    skipped."""
    name, group = quoteattr(it.script.name), quoteattr(f"{where}.{it.script.subject}".replace(":", "_"))
    head = f"    <testcase name={name} classname={group} time=\"{it.seconds:.3f}\""
    lines = why(it)
    if it.outcome == PASS:
        yield head + "/>"
        return
    kind = "failure" if it.outcome == DIFFER else "skipped"
    yield head + ">"
    message = quoteattr(lines[0] if lines else it.outcome)
    yield f"      <{kind} message={message}>{escape(chr(10).join(lines))}</{kind}>"
    yield "    </testcase>"


def as_junit(report: Report) -> str:
    """Returns the report as XML for build servers."""
    took = sum(it.seconds for it in report.results)
    totals = f"tests=\"{len(report.results)}\" failures=\"{report.count(DIFFER)}\" skipped=\"{report.count(UNKNOWN)}\""
    lines = [
        '<?xml version="1.0" encoding="UTF-8"?>', "<testsuites>",
        f"  <testsuite name={quoteattr('arterial conform ' + report.where)} {totals} errors=\"0\" time=\"{took:.3f}\">",
    ]  # fmt: skip
    for it in report.results:
        lines += case_xml(report.where, it)
    return "\n".join([*lines, "  </testsuite>", "</testsuites>", ""])


# the page

STYLE = """body{font:16px/1.45 system-ui,sans-serif;margin:2rem auto;max-width:75rem;padding:0 1rem;color:#22262a}
h1{font-size:1.5rem}h2{font-size:1.15rem;margin-top:2rem}table{border-collapse:collapse}td,th{padding:.2rem .7rem;
text-align:left;vertical-align:top;border-bottom:1px solid #dee2e6}.pass{color:#1b6e37}.differ{color:#b3221f;
font-weight:600}.unknown{color:#7a5b00}svg{max-width:100%;height:auto}
@media (prefers-color-scheme:dark){body{background:#16191c;color:#e9ecef}.pass{color:#69db7c}.differ{color:#ff8787}
.unknown{color:#ffd43b}svg{background:#fff}}"""
CLASSES = {PASS: "pass", DIFFER: "differ", UNKNOWN: "unknown"}


def drawn(result: Result) -> str:
    """Returns the picture of a result as SVG, "" if it has none."""
    if result.outcome != DIFFER or result.driven is None or result.compared is None:
        return ""
    import tempfile

    from .picture import draw

    with tempfile.TemporaryDirectory() as folder:
        path = pathlib.Path(folder) / "picture.svg"
        draw(result, str(path))
        text = path.read_text(encoding="utf-8")
    return text[text.index("<svg") :]


def page_row(it: Result) -> str:
    """Returns the row of a test."""
    lines = "<br>".join(map(html.escape, [it.script.shows, *why(it)]))
    name = html.escape(it.script.name)
    link = f'<a href="#{name}">{name}</a>' if it.outcome == DIFFER else name
    return (
        f'<tr><td class="{CLASSES[it.outcome]}">{it.outcome}</td><td>{html.escape(it.script.subject)}</td>'
        f"<td>{link}</td><td>{lines}</td></tr>"
    )


def as_page(report: Report) -> str:
    """Returns the report as one page that loads nothing."""
    notes = [*report.notes, timing(report.counts), *report.counts.words()]
    notes += list(report.load.words()) if report.load else []
    parts = [
        '<!doctype html><html lang="en"><meta charset="utf-8"><meta name="viewport" content="width=device-width">',
        f"<title>{html.escape(report.where)}: {html.escape(summary(report))}</title><style>{STYLE}</style>",
        f"<h1>Device {html.escape(report.where)}</h1><p>{html.escape(summary(report))}</p>",
        f"<p>Compared with {html.escape(report.program)}.</p>",
        "<ul>" + "".join(f"<li>{html.escape(visible(it))}</li>" for it in notes) + "</ul>",
        "<table><thead><tr><th>Result<th>Subject<th>Test<th>What it shows, and what was found</thead><tbody>",
        *map(page_row, report.results), "</tbody></table>",
    ]  # fmt: skip
    for it in report.results:
        if picture := drawn(it):
            name = html.escape(it.script.name)
            lines = "".join(f"<p>{html.escape(line)}</p>" for line in why(it))
            parts.append(f'<h2 id="{name}">{name}</h2>{lines}<figure>{picture}</figure>')
    return "\n".join([*parts, "</html>", ""])


def write_picture(report: Report, path: str) -> None:
    """Writes the picture of the first test that differs; of the first that was done, if none differs."""
    from .picture import draw

    done = [it for it in report.results if it.driven is not None and it.compared is not None]
    if not done:
        raise Fault(f"{path}: no test was done, so there is nothing to draw")
    draw(next((it for it in done if it.outcome == DIFFER), done[0]), path)


def written(report: Report, path: str) -> None:
    """Writes the report by the ending of a file: .json, .xml (JUnit), .html, a picture (.svg, .png, .pdf), else
    text."""
    suffix = pathlib.Path(path).suffix
    if suffix in PICTURES:
        write_picture(report, path)
        return
    if suffix == ".json":
        text = json.dumps(as_json(report), indent=2, ensure_ascii=False) + "\n"
    elif suffix == ".xml":
        text = as_junit(report)
    elif suffix == ".html":
        text = as_page(report)
    else:
        text = "\n".join([*text_lines(report), ""])
    with files.output(path) as out:
        out.write(text)
