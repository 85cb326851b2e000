"""The subcommand `page`: writes a run as one page for a browser."""
from __future__ import annotations

import base64
import hashlib
import os
from typing import Any, Iterator, Sequence

from rvlook.access.map import events
from rvlook.access.map_text import write_event
from rvlook.errors import Unfinished, package_missing
from rvlook.image.variables import frames_of
from rvlook.output.printer import Printer, end_object, run_object
from rvlook.page.data import GRANULE, Collector, NumberColumns, compressed
from rvlook.page.sources import roots_of, source_texts
from rvlook.protocol.console import consoles_of
from rvlook.protocol.memory_map import RAM_BASE
from rvlook.protocol.run import End, Run
from rvlook.protocol.symbols import Symbols
from rvlook.trace.text import lines_of
from rvlook.trace.tracer import RunTracer, TracedStep

FOLDER = os.path.dirname(os.path.abspath(__file__))
STYLES = ("page.css",)
SCRIPTS = ("data.js", "chart.js", "marks.js", "panel.js", "stack.js", "find.js", "keys.js")
JOINED = 1024  # bytes; accessed granules that are at most so far apart are in one segment


def page_template() -> Any:
    """Returns the template of the page; raises Unfinished if jinja2 is missing."""
    try:
        from jinja2 import Environment, FileSystemLoader, StrictUndefined
    except ImportError:
        raise Unfinished(package_missing("jinja2", "python3-jinja2", "page cannot render its output")) from None
    environment = Environment(loader=FileSystemLoader(FOLDER), autoescape=True, undefined=StrictUndefined, keep_trailing_newline=False)
    return environment.get_template("page.html")


def show_page(run: Run, symbols: Symbols, printer: Printer, template: Any, paths: Sequence[str], folders: Sequence[str]) -> None:
    """Writes the page of a run. `paths` are the ELF files whose source files it has, from below their own folders and `folders`."""
    collector = collected(run, symbols)
    sources = source_texts(paths, collector.source_names(), roots_of(folders))
    columns = NumberColumns()
    variables = [frame._asdict() for frame in frames_of(paths[0] if len(paths) > 1 else None, run.setup.image, collector.executed())]
    data = {**collector.data(columns), "segments": segments_of(collector), "sources": sources, "variables": variables}
    style, script = text_of(STYLES), text_of(SCRIPTS)
    policy = policy_of(style, script)
    printer.document(template.render(title=collector.title, data=compressed(data, columns), style=style, script=script, policy=policy))


def text_of(names: Sequence[str]) -> str:
    """Returns the text of files of this folder."""
    texts = []
    for name in names:
        with open(os.path.join(FOLDER, name), encoding="utf-8") as file:
            texts.append(file.read())
    return "\n" + "\n".join(texts)


def policy_of(style: str, script: str) -> str:
    """Returns the content security policy of a page: it runs only this script, has only this style, and loads nothing but its own data.

    A name that broke out of its place in the page could run no script."""
    return ("default-src 'none'; script-src '%s'; style-src '%s'; connect-src data:; base-uri 'none'; form-action 'none'"
            % (hash_of(script), hash_of(style)))


def hash_of(text: str) -> str:
    """Returns the hash of the text of an element, as a policy names it (Content Security Policy 2.3.1)."""
    return "sha256-" + base64.b64encode(hashlib.sha256(text.encode("utf-8")).digest()).decode("ascii")


def collected(run: Run, symbols: Symbols) -> Collector:
    """Returns all objects of the map and the trace of a run."""
    collector, consoles = Collector(run, symbols), consoles_of(symbols)
    writer = collector.objects
    run_object(collector, run, symbols)
    for item in RunTracer(run).events():
        if isinstance(item, TracedStep):
            collector.step(item)
            for console_writer, line in lines_of(item, consoles) if consoles else ():
                writer.console(item.number, console_writer, line)
        elif isinstance(item, End):
            writer.end(item)
        else:
            writer.command(item)
    for event in events(run):
        if isinstance(event, End):
            end_object(collector, event)
        else:
            write_event(collector, event, symbols)
    return collector


def segments_of(collector: Collector) -> list[dict[str, Any]]:
    """Returns the segments of RAM in ascending order: first and last address, whether it is accessed, and the names in it. RAM is cut at the
    boundaries of the map, and where accessed memory begins and ends."""
    boundaries = sorted(int(first, 16) for first in collector.boundaries)
    ends = boundaries[1:] + [RAM_BASE + collector.run["ram"]]
    touched = sorted(granule * GRANULE for granule in collector.granules)
    below, above = any(address < boundaries[0] for address in touched), any(address >= ends[-1] for address in touched)
    labels = sorted((address, name) for name, address in collector.labels.items())
    segments = [unmapped(0, RAM_BASE)] if below else []
    for first, end in zip(boundaries, ends):
        for low, high, is_open in parts_of_range(first, end, [address for address in touched if first <= address < end]):
            names = [{"address": "%08x" % address, "name": name} for address, name in labels if low <= address < high]
            segments.append({"first": "%08x" % low, "last": "%08x" % (high - 1), "range": "%08x" % first, "open": is_open,
                             "labels": names if is_open else []})
    return segments + ([unmapped(ends[-1], 1 << 32)] if above else [])


def unmapped(first: int, end: int) -> dict[str, Any]:
    """Returns a segment of addresses outside the RAM, where the run has tried to access memory."""
    return {"first": "%08x" % first, "last": "%08x" % (end - 1), "range": "%08x" % first, "open": True, "outside": True, "labels": []}


def parts_of_range(first: int, end: int, touched: Sequence[int]) -> Iterator[tuple[int, int, bool]]:
    """Yields the parts of a range: first address, end, and whether it is accessed."""
    start, index = first, 0
    while index < len(touched):
        low = high = touched[index]
        while index < len(touched) and touched[index] - high <= JOINED:
            high, index = touched[index], index + 1
        high = min(high + GRANULE, end)
        if low > start:
            yield start, low, False
        yield low, high, True
        start = high
    if start < end:
        yield start, end, False
