"""Draws a report over time: windows, queues, one-way delays, drops; as a picture, or as a page for a
browser."""
import argparse
from functools import partial
from typing import TYPE_CHECKING, Iterator, NamedTuple, Optional, Sequence

from dnlab.analysis.metrics import ALIASES, MORE, WHAT, Span, is_named
from dnlab.analysis.names import names_of, with_names
from dnlab.analysis.reports import Inputs, TooMany, map_experiments, plans_of
from dnlab.cli.arguments import (add_design, add_names, add_of, add_texts, add_workers, design_of, moment_of,
                                 parser_of, picture, parse_files, time_of, words_in, writing)
from dnlab.errors import InputError, Note

if TYPE_CHECKING:
    from dnlab.analysis.series import Panel
    from dnlab.analysis.view import View
    from dnlab.plot import page

# With more columns the picture would be too wide to read; with more experiments it would have too many lines.
_MOST = 20
_MOST_OVER = 250


class Drawn(NamedTuple):
    """The part of one experiment in a picture."""
    name: str
    panels: "list[Panel]"
    notes: list[Note]


def panels_of(text: str) -> list[str]:
    names = text.split(",")
    for name in names:
        if name not in (*WHAT, *MORE, *ALIASES):
            raise argparse.ArgumentTypeError(f"{name!r} is not one of {','.join((*WHAT, *MORE))}")
    return names


def words(given: Sequence[str]) -> argparse.Namespace:
    parser = parser_of("plot")
    add_texts(parser)
    add_names(parser)
    parser.add_argument("--only", action="append", default=[], type=words_in,
                        metavar="NAME,..", help="only these experiments, separated by commas")
    parser.add_argument("--what", type=panels_of, default=list(WHAT),
                        help=f"panels, separated by commas [{','.join(WHAT)}]")
    parser.offered["--what"] = (*WHAT, *MORE)
    add_of(parser, "only these senders, as 'flow 1' or 'train *' (not in queue, flight, drops; repeatable)")
    parser.add_argument("--from", type=moment_of, default=0, dest="begin", metavar="TIME",
                        help="start of the time axis, as 500ms [0s]")
    parser.add_argument("--to", type=moment_of, dest="end", metavar="TIME",
                        help="end of the time axis [the last event]")
    parser.add_argument("--bin", type=time_of, metavar="TIME",
                        help="length of an interval of throughput [a round number, for 50 intervals or more; "
                             "fewer if there are few packets]")
    parser.add_argument("--overlay", action="store_true", help="all experiments in one column of panels")
    parser.add_argument("--effective", action="store_true", help="draw effective windows too, as wide bands")
    parser.add_argument("--acks", action="store_true",
                        help="draw acknowledgements too, and pipes that carry nothing else")
    parser.add_argument("--out", type=picture, default="plot.svg", metavar="FILE",
                        help="the output file, .svg, .png or .pdf [plot.svg]")
    add_design(parser, "a sender, a pipe or an experiment, as 'train 9=the call'")
    add_workers(parser)
    found = parse_files(parser, list(given))
    found.experiment += [name for names in found.only for name in names]
    if found.end is not None and found.end <= found.begin:
        parser.error("--to must be later than --from")
    if found.effective and "window" not in found.what:
        parser.error("--effective goes with --what window")
    if found.bin is not None and not any("throughput" in what for what in found.what):
        parser.error("--bin goes with --what throughput, cdf:throughput or box:throughput")
    return found


def draw_one(view: "View", what: Sequence[str], span: Span, every: Optional[int], patterns: Sequence[str],
             effective: bool,
             acks: bool) -> Drawn:
    """Returns the panels of one experiment. Runs in another process."""
    from dnlab.analysis.series import panel_of

    names = [name for name, _ in view.senders]
    # Computed before --of selects senders, so that it covers all of them.
    notes = view.notes
    if patterns:
        view.senders = [(name, packets) for name, packets in view.senders
                        if any(is_named(name, pattern) for pattern in patterns)]
        if not view.senders:
            view.more_notes.append(Note("senders",
                                        f"--of {' '.join(map(repr, patterns))}: no sender matches; the "
                                        f"senders are {', '.join(names)}"))
    panels = [panel_of(view, one, span, every, effective, acks) for one in what]
    for panel in panels if patterns else []:
        panel.series = [one for one in panel.series if not one.label.startswith("through ")]
    return Drawn(view.name, panels, notes + view.more_notes)


def draw(given: argparse.Namespace) -> list[Drawn]:
    from dnlab.analysis.summary import whole

    plans = with_names(plans_of(given.scenarios), names_of(given.names), given.experiment)
    texts = Inputs(given.report, tuple(given.scenarios))
    drawn = []
    most = _MOST_OVER if given.overlay else _MOST
    function = partial(draw_one, what=tuple(given.what), span=Span(given.begin, given.end), every=given.bin,
                       patterns=tuple(given.of), effective=given.effective,
                       acks=given.acks or any("acks" in pattern for pattern in given.of))
    try:
        made = map_experiments(texts, function, plans, given.experiment, given.workers, "plot", most)
        for one in whole(texts, plans, given.experiment, made, lambda one: one.name):
            drawn.append(one)
            if len(drawn) > most:
                raise TooMany(f"more than {most}", most)
    except TooMany as many:
        advice = "choose some with --only a,b"
        if not given.overlay:
            advice += (
                ", or draw them over one another with --overlay; tools/summary and tools/sweep compare "
                "more in numbers")
        where = "in one panel" if given.overlay else "side by side"
        raise InputError(
            f"{given.report}: {many.count} experiments are too many {where} ({most} at "
            f"most): {advice}") from None
    if not drawn:
        raise InputError(f"{given.report}: it has no experiment, so there is nothing to draw")
    return drawn


def main(words_given: Sequence[str]) -> int:
    given = words(words_given)
    # Imported here, so that --help works without numpy.
    from dnlab.analysis.distributions import overlaid
    from dnlab.analysis.summary import tell
    from dnlab.plot import pictures
    from dnlab.plot.style import save

    design = design_of(given)
    drawn = draw(given)
    names, columns = [one.name for one in drawn], [one.panels for one in drawn]
    notes = [(one.name, note) for one in drawn for note in one.notes]
    if given.overlay:
        panels, more = overlaid(names, columns)
        names, columns = [", ".join(names) if len(names) < 4 else f"{len(names)} experiments"], [panels]
        notes += more
    figure = pictures.figure_of_panels(names, columns, Span(given.begin, given.end), design)
    with writing(given.out):
        save(figure, given.out)
    tell("plot", notes, len(drawn))
    print(f"{given.out}: experiments: {len(drawn)}, panels per experiment: {len(given.what)}")
    return 0


# A page holds all its experiments; with more of them a browser takes long to open it.
_MOST_EXPERIMENTS = 256


def view_words(given: Sequence[str]) -> argparse.Namespace:
    parser = parser_of("view")
    add_texts(parser)
    parser.add_argument("--out", default="view.html", metavar="FILE", help="what is written [view.html]")
    parser.add_argument("--single", action="store_true",
                        help="with plotly's script (8 MB) within: one file to pass on")
    add_workers(parser)
    return parse_files(parser, list(given))


def page_of_one(view: "View") -> "tuple[page.Drawn, list[Note]]":
    """Returns what the page shows of an experiment, and its notes. Runs in another process."""
    from dnlab.plot.page import drawn

    return drawn(view), view.notes + view.more_notes


def view(words_given: Sequence[str]) -> int:
    given = view_words(words_given)
    # Imported here, because the help must work without plotly and numpy.
    from plotly.offline import get_plotlyjs

    from dnlab.analysis.summary import tell, whole
    from dnlab.plot import page

    notes: list[tuple[str, Note]] = []
    names: list[str] = []

    def experiments() -> "Iterator[page.Drawn]":
        plans = plans_of(given.scenarios)
        texts = Inputs(given.report, tuple(given.scenarios))
        made = map_experiments(texts, page_of_one, plans, given.experiment, given.workers, "view",
                               _MOST_EXPERIMENTS)
        for found, own in whole(texts, plans, given.experiment, made, lambda one: str(one[0].head["name"])):
            names.append(found.head["name"])
            notes.extend((names[-1], note) for note in own)
            yield found
        if not names:
            raise InputError(f"{given.report}: it has no experiment, so there is nothing to draw")

    title = "standard input" if given.report == "-" else given.report
    try:
        with writing(given.out):
            written = page.write(given.out, f"dnlab: {title}", experiments(), get_plotlyjs(), given.single)
    except TooMany as many:
        raise InputError(f"{given.report}: {many}: name some by --experiment") from None
    tell("view", notes, len(names))
    print(f"{', '.join(written)}: experiments: {len(names)}")
    return 0
