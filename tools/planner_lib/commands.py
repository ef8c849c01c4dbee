"""The command line of `tools/planner`."""

import argparse
import os
import sys
from contextlib import ExitStack
from decimal import Decimal
from functools import partial
from pathlib import Path
from typing import Callable, Iterable

from . import asking, captures, cases, certificates, documents, drawing, faults, graphml, jobs, judging, lines, lldp
from . import pictures, plain, plans, shapes, standing, tables, texts, timelines
from .called import CALL, NAME
from .documents import MOST_PORTS, MOST_SYSTEMS, RANGES, Document
from .happenings import KINDS
from .naming import Names
from .options import FAULTS_FLAGS, FAULTS_OPTIONS, delay, setting, time, whole
from .packages import need
from .plans import Plan
from .program import ask
from .quantities import in_seconds
from .readable import Readable
from .refusal import MissingPackage, NotBuilt, Refused

Arguments = argparse.Namespace
Call = Callable[[Arguments], int | None]


def main(words: list[str]) -> int:
    """Does what the command line says: 0 done, 1 refused, 2 usage (by argparse), 3 not built, or no package."""
    arguments = _parser().parse_args(words)
    arguments.calls = []
    try:
        return arguments.call(arguments) or 0
    except Refused as why:
        print(f"{NAME}: {' '.join(str(why).splitlines())}", file=sys.stderr)
        return 1
    except (MissingPackage, NotBuilt) as why:
        print(f"{NAME}: {why}", file=sys.stderr)
        return 3
    except BrokenPipeError:
        os.dup2(os.open(os.devnull, os.O_WRONLY), sys.stdout.fileno())  # else Python complains as it ends
        return 1
    except OSError as why:
        print(f"{NAME}: {why.filename or 'standard output'}: {why.strerror}", file=sys.stderr)
        return 1


def _write(arguments: Arguments, what: bytes | str) -> None:
    """Writes a whole output to the file of -o, else to standard output."""
    octets = what.encode() if isinstance(what, str) else what
    if arguments.o:
        Path(arguments.o).write_bytes(octets)
    else:
        sys.stdout.buffer.write(octets)
        sys.stdout.buffer.flush()


def _name(path: str) -> str:
    """What the file of a document is called."""
    return "document.toml" if path == "-" else Path(path).name


def _asked(arguments: Arguments, octets: bytes, *words: str) -> list[texts.Line]:
    """The lines of a command of the program for a document; the call is noted."""
    arguments.calls.append(" ".join(["gptp_sim", *words]))
    return list(texts.read_lines(ask(list(words), octets, arguments.doc), f"gptp_sim {words[0]}"))


def _options(arguments: Arguments) -> list[str]:
    """--until and --seed, where they are given."""
    given = (("--until", arguments.until), ("--seed", arguments.seed))
    return [word for name, value in given if value is not None for word in (name, str(value))]


def _draw(arguments: Arguments) -> None:
    """Draws the network: DOT, or SVG where the file of -o ends so."""
    octets = documents.read_file(arguments.doc)
    as_svg = (arguments.o or "").endswith(".svg")
    if arguments.plain:
        at, stands = standing.of_run(_asked(arguments, octets, "run", *_options(arguments)))
        document = documents.parse(octets, arguments.doc)
        dot = plain.graph(document, stands, document.links_up(at), f"at {in_seconds(at)} s")
        _write(arguments, pictures.draw(["dot", "-Tsvg"], dot) if as_svg else dot)
        return
    stretches, document = _timeline(arguments, octets)
    last = stretches[-1]
    drawn = drawing.Drawing(document, arguments.fold)
    seen = drawing.Seen(_bounds(arguments, octets), last.errors())
    view = drawing.View(last.ended, document.links_up(last.end), f"at {in_seconds(last.end)} s", seen)
    _write(arguments, drawn.svg(view) if as_svg else drawn.dot(view))


def _timeline(arguments: Arguments, octets: bytes, *times: str) -> tuple[list[timelines.Stretch], Document]:
    """The stretches of a document, and what is read of it; with `--times` also what systems read in them."""
    told = _asked(arguments, octets, "timeline", "--offsets", *times, *_options(arguments))
    return timelines.read(told), documents.parse(octets, arguments.doc)


def _bounds(arguments: Arguments, octets: bytes) -> dict[str, Decimal]:
    """The bound of each system's error in ns, where it has one, after the events up to --until."""
    until = [] if arguments.until is None else ["--until", str(arguments.until)]
    return {line["clock"]: line["error"] for line in _asked(arguments, octets, "accuracy", *until)
            if line.kind == "system bound" and line["error"] is not None}


def _report(arguments: Arguments) -> None:
    """Writes the page of a document."""
    need("report", {"jinja2": "python3-jinja2", "matplotlib": "python3-matplotlib"})
    from . import pages
    octets = documents.read_file(arguments.doc)
    stretches, document = _timeline(arguments, octets, "--times")
    bounds = _bounds(arguments, octets)
    judgement = _judged(arguments, octets, document) if arguments.require else None
    table = judgement.faults if judgement else None
    if arguments.faults and table is None:
        table = faults.in_parts(partial(_asked, arguments, octets), ["faults", "--power", "--times"], arguments.jobs)
    detect = judgement.detect if judgement else None
    shown = [_shown(arguments, octets, table, detect, *it) for it in cases.worst(document, table)] if table else []
    told = pages.Told(_name(arguments.doc), document, stretches, bounds, table, judgement, shown, arguments.calls,
                      1 if arguments.seed is None else arguments.seed)
    _write(arguments, pages.page(told))


def _shown(arguments: Arguments, octets: bytes, table: faults.Faults, detect: int | None, case: faults.Case,
           alike: int) -> cases.Shown:
    """A fault, seen `detect` ns late where that is given, with what happens in its first run."""
    at = int(table.head["from"])
    events = cases.events(documents.parse(octets, arguments.doc), case, at, detect)
    text = octets + b"\n" + "\n".join(event.text() for event in events).encode()
    told = _asked(arguments, text, "timeline", "--until", str(cases.end(case, at)))
    return cases.Shown(case, alike, at, detect, documents.parse(text, arguments.doc), timelines.read(told))


def _judge(arguments: Arguments) -> int:
    """Says whether a document keeps what is required of it; the status."""
    octets = documents.read_file(arguments.doc)
    judgement = _judged(arguments, octets, documents.parse(octets, arguments.doc))
    _write(arguments, judgement.text())
    return 0 if judgement.kept else 1


def _judged(arguments: Arguments, octets: bytes, document: Document) -> judging.Judgement:
    """The verdict of a file of requirements on a document."""
    return judging.judge(arguments.require, document, partial(_asked, arguments, octets), arguments.jobs)


def _plot(arguments: Arguments) -> None:
    """Draws errors, in ns."""
    need("plot", {"matplotlib": "python3-matplotlib"})
    from . import plots
    octets = documents.read_file(arguments.doc)
    names = Names(documents.parse(octets, arguments.doc))
    clocks = [names.clock(word) for word in arguments.system]
    over_steps = arguments.over == "steps"
    stretches, document = _timeline(arguments, octets, *([] if over_steps else ["--times"]))
    if over_steps:
        svg = plots.over_steps(document, stretches, clocks, _bounds(arguments, octets))
    else:
        svg = plots.over_time(document, stretches, clocks, document.sync)
    if svg is None:
        raise Refused(f"{arguments.doc}: no system has an error to plot")
    _write(arguments, svg)


def _capture(arguments: Arguments) -> None:
    """Writes the frames of a run."""
    told = _asked(arguments, documents.read_file(arguments.doc), "run", "--frames", *_options(arguments))
    _write(arguments, captures.capture(line for line in told if line.kind == "frame"))


def _shape(arguments: Arguments) -> None:
    """Makes a document of a plain shape."""
    nodes, cables = arguments.shape(*(getattr(arguments, name) for name in arguments.sizes))
    arguments.delay = arguments.delay or plans.DEFAULT_DELAY
    _document(arguments, Plan(nodes, cables))


def _csv(arguments: Arguments) -> None:
    """Makes a document of tables."""
    _document(arguments, tables.read(arguments.links, arguments.systems, arguments.events, arguments.jitter))


def _graphml(arguments: Arguments) -> None:
    """Makes a document of a graph."""
    _document(arguments, graphml.read(arguments.file, arguments.jitter), has_default=True)


def _lldp(arguments: Arguments) -> None:
    """Makes a document of what devices say of their neighbours."""
    _document(arguments, lldp.read(arguments.files), has_default=True)


def _document(arguments: Arguments, plan: Plan, has_default: bool = False) -> None:
    """Writes the document of a network; links without a delay get the default one where there is one, which is told."""
    given: dict[str, dict[str, int]] = {section: {} for section in RANGES}
    for section, key, value in arguments.set:
        given[section][key] = value
    settings = plans.Settings(arguments.delay, given["network"], given["system"], given["link"], arguments.boot,
                              arguments.draw)
    if has_default:
        plan, settings = plans.with_default_delay(plan, settings)
    _write(arguments, plans.document(plan, settings, f"Made by {CALL} network {arguments.name}").text())
    for line in plan.told.splitlines():
        print(f"{NAME}: {line}", file=sys.stderr)


def _names(arguments: Arguments) -> None:
    """Writes lines with names in place of clocks."""
    document = documents.parse(documents.read_file(arguments.doc), arguments.doc)
    with documents.reading(arguments.file) as lines:
        _pass_on(arguments, lines, Readable(document, arguments.units))


def _ask(arguments: Arguments) -> int:
    """Asks the program with names and units; the program's status."""
    octets = documents.read_file(arguments.doc)
    raw = arguments.raw or "--raw" in arguments.words
    try:
        document = documents.parse(octets, arguments.doc)
    except Refused:
        document = Document((), ())  # the program says what is wrong with it; it has no names
    words = asking.words_for(document, [word for word in arguments.words if word != "--raw"])
    answer = asking.Answer(words, octets)
    _pass_on(arguments, answer, None if raw else Readable(document, True))
    return answer.status


def _pass_on(arguments: Arguments, lines: Iterable[bytes], readable: Readable | None) -> None:
    """Writes lines as they come, made readable where that is wanted; each is written before the next is read."""
    with ExitStack() as stack:
        file = stack.enter_context(open(arguments.o, "wb")) if arguments.o else sys.stdout.buffer
        for line in lines:
            if readable:
                text = line.decode(errors="surrogateescape").removesuffix("\n")
                end = b"\n" if line.endswith(b"\n") else b""
                line = readable.line(text).encode(errors="surrogateescape") + end
            file.write(line)
            file.flush()


def _certificate(arguments: Arguments) -> None:
    """Makes a certificate of a live network."""
    _write(arguments, certificates.certificate(certificates.read(arguments.files)))


def _json(arguments: Arguments) -> None:
    """Writes lines of a command as JSON lines."""
    told = documents.read_text(arguments.file).splitlines()
    _write(arguments, "".join(lines.json_lines(texts.read_lines(told, arguments.file))))


def _jobs(arguments: Arguments) -> None:
    """Writes a script for `faults` in parts, and makes the folder that it fills."""
    octets = documents.read_file(arguments.doc)
    documents.parse(octets, arguments.doc)
    name = _name(arguments.doc)
    folder = Path(arguments.o or f"{'document' if arguments.doc == '-' else arguments.doc}.parts")
    copy = jobs.folder(folder, name, octets, arguments.parts)
    given = [(option, getattr(arguments, option[2:].replace("-", "_"))) for option in FAULTS_OPTIONS]
    words = [flag for flag in FAULTS_FLAGS if getattr(arguments, flag[2:])]
    words += [word for option, value in given if value is not None for word in (option, str(value))]
    script = jobs.parallel if arguments.for_ == "parallel" else jobs.slurm
    sys.stdout.write(script(asking.shell_word(), copy, arguments.parts, words))


def _merge(arguments: Arguments) -> int:
    """Writes the parts of `faults` as one text; 1 where it says `exceeded`."""
    parts = []
    for path in arguments.files:
        if jobs.is_broken_off(path):
            continue
        told = list(texts.read_lines(documents.read_text(path).splitlines(), path))
        if told and told[0].kind == "refused":
            raise Refused(f"{path}: line 1: {told[0].text}")
        parts.append((path, faults.read(told, path)))
    merged = faults.merge(parts, jobs.counts(arguments.files))
    _write(arguments, merged.text())
    return 0 if merged.verdict.kind == "within" else 1


class _Command:
    """Adds commands to a parser, each with what it does and an example."""

    def __init__(self, parser: argparse.ArgumentParser) -> None:
        self._commands = parser.add_subparsers(required=True, metavar="COMMAND")

    def add(self, name: str, what: str, example: str, call: Call | None = None, place: str = "FILE",
            written: str = "write there in place of standard output") -> argparse.ArgumentParser:
        """A command; its output goes to standard output, or to the file of -o, or to another place."""
        parser = self._commands.add_parser(name, help=what, description=what[0].upper() + what[1:] + ".",
                                           epilog=f"Example: {CALL} {example}")
        if call:
            parser.set_defaults(call=call, name=name)
            parser.add_argument("-o", metavar=place, help=written)
        return parser


def _parser() -> argparse.ArgumentParser:
    """All commands."""
    parser = argparse.ArgumentParser(
        prog=NAME, description="Documents, answers, verdicts, pictures and captures over gptp_sim.",
        epilog="The program is the gptp_sim of the same repository or package, or what GPTP_SIM names. "
               "Exit status: 0 done, 1 refused (or exceeded, broken), 2 usage, 3 the program isn't built, or a Debian "
               "package is missing.")
    commands = _Command(parser)
    _add_pictures(commands)
    _add_networks(_Command(commands.add("network", "make a document", "network ring 6")))
    pmc = _Command(commands.add("certificate", "make a certificate of a live network", "certificate pmc *.pmc"))
    _add_texts(commands, pmc)
    return parser


def _add_pictures(commands: _Command) -> None:
    """The commands that ask the program about a document."""
    draw = commands.add("draw", "draw the network as it stands at a run's end: DOT, or SVG where FILE ends in .svg",
                        "draw examples/ring.toml -o ring.svg", _draw)
    report = commands.add("report", "write one HTML page of a document's timeline",
                          "report --faults examples/vehicle.toml -o vehicle.html", _report)
    plot = commands.add("plot", "draw the errors over steps or over time as SVG",
                        "plot examples/ring.toml 0080e1fffe00000b -o errors.svg", _plot)
    capture = commands.add("capture", "write the frames of a run as pcapng",
                           "capture --until 2s examples/ring.toml -o ring.pcapng", _capture)
    judge = commands.add("judge", "say whether a document keeps what is asked of it", "judge require.toml plan.toml",
                         _judge)
    judge.add_argument("require", metavar="REQUIREMENTS", help="a table [require] in TOML")
    for parser in (draw, report, plot, capture, judge):
        parser.add_argument("doc", metavar="DOC", help="a document; - is standard input")
    for parser in (draw, report, plot, capture):
        parser.add_argument("--until", type=time(0, 10**15), metavar="TIME", help="when the run ends")
        parser.add_argument("--seed", type=whole(0, 2**32 - 1), metavar="N", help="the seed of delays and losses")
    for parser in (report, judge):
        parser.add_argument("--jobs", type=whole(1, 512), default=1, metavar="N", help="so many runs at a time")
    draw.add_argument("--fold", action="store_true",
                      help="leaves of one bridge that are alike as one box, as where there are more than 40 systems")
    draw.add_argument("--plain", action="store_true", help="boxes with offsets, laid out as the network stands")
    report.add_argument("--require", metavar="REQUIREMENTS", help="what is asked: the verdict comes first")
    report.add_argument("--faults", action="store_true",
                        help="with each link, each system and its power failing and coming back")
    plot.add_argument("system", nargs="*", metavar="NAME", help="systems whose errors are points; by default all")
    plot.add_argument("--over", choices=("steps", "time"), default="time", help="by default time")


def _add_networks(commands: _Command) -> None:
    """The commands that make documents."""
    some, made = whole(2, MOST_SYSTEMS), []
    branches = {"K": whole(1, MOST_PORTS - 1), "DEPTH": whole(1, 9)}
    for name, shape, what, sizes in (
        ("line", shapes.line, "N systems in a row", {"N": some}),
        ("ring", shapes.ring, "N systems in a ring", {"N": whole(3, MOST_SYSTEMS)}),
        ("star", shapes.star, "a bridge with N stations", {"N": whole(1, MOST_PORTS)}),
        ("tree", shapes.tree, "bridges with K below each, DEPTH levels below the first", branches),
        ("grid", shapes.grid, "bridges in H rows of W", {"W": some, "H": some}),
    ):
        example = {"tree": "tree 2 3", "grid": "grid 3 3"}.get(name, f"{name} 6 --delay 390-410 --set sync=-4")
        parser = commands.add(name, f"make a document of {what}", f"network {example}", _shape)
        for size, kind in sizes.items():
            parser.add_argument(size, type=kind)
        parser.set_defaults(shape=shape, sizes=list(sizes))
        made.append(parser)
    made += [_add_csv(commands), _add_file(commands), _add_lldp(commands)]
    for parser in made:
        parser.add_argument("--delay", type=delay, metavar="MIN-MAX",
                            help="of links without a delay of their own; by default, but for csv, 100-110 ns")
        parser.add_argument("--boot", type=time(1, 10**12), metavar="TIME",
                            help="let systems without a start boot within it, each at a time of its own")
        parser.add_argument("--draw", type=whole(0, 2**32 - 1), default=0, metavar="N", help="with --boot: the pattern")
        parser.add_argument("--set", type=setting, action="append", default=[], metavar="KEY=VALUE",
                            help="a key of [network]; system.KEY and link.KEY: of each system, each link without it")


def _add_csv(commands: _Command) -> argparse.ArgumentParser:
    """The command that makes a document of tables."""
    parser = commands.add("csv", "make a document of a table of links", "network csv links.csv systems.csv", _csv)
    parser.add_argument("links", metavar="LINKS", help=f"columns {', '.join(tables.LINK_COLUMNS)}; a metre is 5 ns")
    parser.add_argument("systems", nargs="?", metavar="SYSTEMS", help=f"columns {', '.join(tables.SYSTEM_COLUMNS)}")
    parser.add_argument("--events", metavar="EVENTS", help=f"columns {', '.join(tables.EVENT_COLUMNS)}; "
                                                           f"kinds {', '.join(KINDS)}")
    _add_jitter(parser)
    return parser


def _add_jitter(parser: argparse.ArgumentParser) -> None:
    """The option for links whose jitter, in ns, isn't given."""
    parser.add_argument("--jitter", type=time(0, 10**9), metavar="TIME",
                        help=f"of links with metres or min alone; by default {plans.DEFAULT_JITTER} ns, which is told")


def _add_file(commands: _Command) -> argparse.ArgumentParser:
    """The command that makes a document of a graph."""
    parser = commands.add("graphml", "make a document of a graph by NetworkX or yEd", "network graphml plant.graphml",
                          _graphml)
    parser.add_argument("file", metavar="FILE", help="attributes are called as the columns of `network csv`")
    _add_jitter(parser)
    return parser


def _add_lldp(commands: _Command) -> argparse.ArgumentParser:
    """The command that makes a document of what devices say of their neighbours."""
    parser = commands.add("lldp", "make a document of what devices say of their neighbours",
                          "network lldp sw1.json sw2.json", _lldp)
    parser.add_argument("files", nargs="+", metavar="FILE",
                        help="what `lldpcli show neighbors -f json` writes; a file is called as its device")
    return parser


def _add_texts(commands: _Command, certificate: _Command) -> None:
    """The commands over texts of the program and of linuxptp."""
    pmc = certificate.add("pmc", "make a certificate of what linuxptp's pmc says of each device, for check --where",
                          "certificate pmc *.pmc -o live.certificate", _certificate)
    pmc.add_argument("files", nargs="+", metavar="FILE", help=f"responses to GET {', '.join(certificates.DATA_SETS)}")
    names = commands.add("names", "write lines of a command with names in place of clocks",
                         "names plan.toml faults.txt --units", _names)
    names.add_argument("doc", metavar="DOC", help="the document whose names they are")
    names.add_argument("file", nargs="?", default="-", metavar="FILE", help="by default standard input")
    names.add_argument("--units", action="store_true", help="times with ns, us, ms or s")
    question = commands.add("ask", "ask the program about a document, with names and units both ways",
                            "ask plan.toml explain hpc --until '20 s'", _ask)
    question.add_argument("--raw", action="store_true", help="write what the program says as it is")
    question.add_argument("doc", metavar="DOC", help="a document; - is standard input")
    question.add_argument("words", nargs=argparse.REMAINDER, metavar="COMMAND ..",
                          help="a command of the program and its words: names of systems, times with units")
    made = commands.add("json", "write lines of a command as JSON lines", "json report.txt", _json)
    made.add_argument("file", nargs="?", default="-", metavar="FILE", help="by default standard input")
    _add_jobs(commands)
    merge = commands.add("merge", "write the parts of `faults` as one text; status 1 where it says `exceeded`",
                         "merge part.*", _merge)
    merge.add_argument("files", nargs="+", metavar="FILE", help="what `gptp_sim faults --parts N --part K` wrote")


def _add_jobs(commands: _Command) -> None:
    """The command that makes a script for a run of `faults` in parts."""
    parser = commands.add("jobs", "write a script that runs `faults` in parts", "jobs plan.toml --parts 64 > plan.sh",
                          _jobs, "DIR", "where the parts come, by default DOC.parts")
    parser.add_argument("doc", metavar="DOC", help="a document; - is standard input")
    parser.add_argument("--parts", type=whole(1, jobs.MOST_PARTS), default=64, metavar="N", help="by default 64")
    parser.add_argument("--for", dest="for_", choices=("parallel", "slurm"), default="parallel",
                        help="GNU parallel (by default) or Slurm's sbatch")
    for flag in FAULTS_FLAGS:
        parser.add_argument(flag, action="store_true", help="as of `faults`")
    for option, kind in FAULTS_OPTIONS.items():
        parser.add_argument(option, type=kind, metavar=option.rpartition("-")[2].upper(), help="as of `faults`")
