#!/usr/bin/env python3
"""Draws the plots of docs/SPEED.md and writes its tables, from what was measured. No part of the gate.

usage: gate/plots.py                                        from docs/measured/ratios.tsv and docs/measured/growth.tsv
       gate/plots.py [--plain FILE ..] [--expert FILE ..]   writes the rows of ratios.tsv beside that program first

It needs matplotlib: Debian's is python3-matplotlib, for /usr/bin/python3. The plots are docs/ratios.svg and docs/growth.svg; the
same files give the same bytes. gate/growth.py writes growth.tsv. A FILE is what one run of the bench beside the plain or the
expert's native program has printed: a line for each load,

    LOAD: N MB in, project N s N MiB, peer N s N MiB, ratio N

and of several runs the medians count. A load with a wrong answer, or one that a run has not, ends the script. In ratios.tsv a row
is a load and a program beside which it was measured: the processor time and the most memory of that program, over this one's. So
above 1 this program is ahead, in both.
"""
import argparse
import collections
import os
import re
import statistics
import sys

ROOT = os.path.dirname(os.path.dirname(os.path.abspath(__file__)))
DOCS = os.path.join(ROOT, "docs")
PAGE = os.path.join(DOCS, "SPEED.md")
RATIOS = os.path.join(DOCS, "measured", "ratios.tsv")
GROWTH = os.path.join(DOCS, "measured", "growth.tsv")

COLUMNS = ["load", "beside", "processor ratio", "memory ratio"]
BENCH = re.compile(r"^(.+): [\d.]+ MB in, project [\d.]+ s ([\d.]+) MiB, peer [\d.]+ s ([\d.]+) MiB, ratio ([\d.]+)(.*)$", re.M)
# The programs beside which it is measured, how a plot calls them, and their colours.
BESIDE = {"plain": ("beside the plain program", "#2a6f97"), "expert": ("beside the expert's program", "#d1661f")}
OPERATIONS = {"get": "#4f9d5d", "set": "#2a6f97", "fetch-all": "#d1661f", "set and fetch-all": "#8b5fa8"}
GREY, DARK = "#d9d9d9", "#333333"
STYLE = {
    "svg.hashsalt": "hopslintel", "svg.fonttype": "none", "font.size": 10, "axes.titlesize": 10, "axes.titleweight": "bold",
    "axes.spines.top": False, "axes.spines.right": False, "axes.axisbelow": True, "axes.edgecolor": DARK,
    "text.color": DARK, "axes.labelcolor": DARK, "xtick.labelcolor": DARK, "ytick.labelcolor": DARK,
}

# The ratios of a load beside one program: of processor time and of memory.
Ratios = collections.namedtuple("Ratios", "processor memory")


def rows_of(path):
    """The rows of a file of tabs, without the names of its columns."""
    with open(path, encoding="utf-8") as it:
        return [line.rstrip("\n").split("\t") for line in it][1:]


def read_ratios():
    """By program beside which it was measured, the ratios of each load."""
    found = {beside: {} for beside in BESIDE}
    for load, beside, processor, memory in rows_of(RATIOS) if os.path.isfile(RATIOS) else []:
        found[beside][load] = Ratios(float(processor), float(memory))
    return found


def read_growth():
    """By operation, what it costs by number of domains, in microseconds; and so the bytes of memory, at most."""
    costs, memory = {operation: {} for operation in OPERATIONS}, collections.Counter()
    for domains, operation, microseconds, resident in rows_of(GROWTH):
        costs[operation][int(domains)] = float(microseconds)
        memory[int(domains)] = max(memory[int(domains)], int(resident))
    return costs, memory


def read_bench(path):
    """The ratios of each load in what a run of the bench has printed."""
    found = {}
    with open(path, encoding="utf-8") as it:
        for load, ours, theirs, ratio, rest in BENCH.findall(it.read()):
            if rest:
                sys.exit(f"{path}: {load}:{rest}")
            found[load] = Ratios(float(ratio), float(theirs) / float(ours))
    return found


def medians(paths):
    """The median ratios of each load over the runs."""
    runs = [read_bench(path) for path in paths]
    if not runs[0] or any(run.keys() != runs[0].keys() for run in runs):
        sys.exit(f"{', '.join(paths)}: no loads, or not the same in each")
    return {load: Ratios(*(statistics.median(each) for each in zip(*(run[load] for run in runs)))) for load in runs[0]}


def write_ratios(ratios):
    with open(RATIOS, "w", encoding="utf-8") as it:
        it.write("\t".join(COLUMNS) + "\n")
        for beside, loads in ratios.items():
            it.writelines(f"{load}\t{beside}\t{of.processor:.2f}\t{of.memory:.2f}\n" for load, of in loads.items())


def loads_of(ratios):
    """All loads, in the order in which they stand in the file."""
    return list(dict.fromkeys(load for loads in ratios.values() for load in loads))


def short(load):
    """What a plot calls a load."""
    return re.split(r": |, ", load)[0]


def draw_panel(axes, ratios, field, title):
    """Dots on stems from the line at 1.0, a row for each load."""
    axes.set_xscale("log", base=2)
    places = {load: -place for place, load in enumerate(loads_of(ratios))}
    for beside, (name, colour) in BESIDE.items():
        shift = 0.16 if beside == "plain" else -0.16
        found = {load: getattr(of, field) for load, of in ratios[beside].items()}
        heights = [places[load] + shift for load in found]
        axes.hlines(heights, 1, list(found.values()), color=colour, linewidth=2.5)
        axes.plot(list(found.values()), heights, "o", color=colour, markersize=6, label=name if found else None)
    axes.axvline(1, color=DARK, linewidth=1)
    axes.grid(axis="x", color=GREY, linewidth=0.6)
    axes.set_yticks(list(places.values()), [short(load) for load in places])
    axes.tick_params(axis="y", length=0)
    axes.xaxis.set_major_formatter(lambda value, _: f"{value:g}")
    axes.minorticks_off()
    axes.spines["left"].set_visible(False)
    axes.set_title(title, loc="left")


def draw_ratios(plt, ratios):
    figure, (left, right) = plt.subplots(1, 2, sharex=True, sharey=True, figsize=(9.6, 5.4), layout="constrained")
    # (leaves room above for what the colours mean)
    figure.get_layout_engine().set(rect=(0, 0, 1, 0.94))
    draw_panel(left, ratios, "processor", "Processor time")
    draw_panel(right, ratios, "memory", "Most memory")
    low, high = left.get_xlim()
    left.set_xlim(min(low, 0.5), max(high, 2.5))
    figure.legend(*left.get_legend_handles_labels(), loc="upper right", ncol=2, frameon=False)
    figure.supxlabel("the other program's over this one's: to the right of 1 this one is ahead", fontsize=10)
    return figure


def told(value, units):
    """A figure in the greatest of these units that it is not below; each is 1,000 of the one before."""
    place = 0
    while value >= 1000 and place + 1 < len(units):
        value, place = value / 1000, place + 1
    return f"{value:g}{units[place]}"


def draw_lines(axes, lines, units, title):
    """Lines over the numbers of domains, each with its colour, of figures in the first of these units."""
    for name, (points, colour) in lines.items():
        domains = sorted(points)
        axes.plot(domains, [points[it] for it in domains], "o-", color=colour, linewidth=2, markersize=5, label=name)
    axes.set_xscale("log")
    axes.set_yscale("log")
    axes.set_xlim(70, 1.4e6)
    axes.grid(color=GREY, linewidth=0.6)
    axes.minorticks_off()
    axes.xaxis.set_major_formatter(lambda value, _: told(value, ["", "k", "M"]))
    axes.yaxis.set_major_formatter(lambda value, _: told(value, units))
    axes.set_xlabel("domains")
    axes.set_title(title, loc="left")
    if not any(points for points, _ in lines.values()):
        axes.set_ylim(1, 10)
        axes.set_yticks([])
        axes.text(0.5, 0.5, "not measured yet", transform=axes.transAxes, ha="center")


def draw_growth(plt, costs, memory):
    figure, (left, right) = plt.subplots(1, 2, figsize=(9.6, 4.4), layout="constrained", width_ratios=[1.3, 1])
    operations = {operation: (costs[operation], colour) for operation, colour in reversed(OPERATIONS.items())}
    draw_lines(left, operations, [" µs", " ms", " s"], "Processor time for an operation")
    left.legend(loc="upper left", frameon=False)
    draw_lines(right, {"": (memory, DARK)}, [" B", " kB", " MB", " GB"], "Memory of the server")
    return figure


def save(figure, name):
    figure.savefig(os.path.join(DOCS, name), metadata={"Date": None, "Creator": None}, facecolor="white")


def ratio_rows(ratios):
    for load in loads_of(ratios):
        found = [ratios[beside].get(load) for beside in BESIDE]
        yield [load, *(f"{it:.2f}" if of else "" for of in found for it in of or ("", ""))]


def growth_rows(costs, memory):
    for domains, most in sorted(memory.items()):
        figures = [costs[operation][domains] for operation in OPERATIONS]
        yield [f"{domains:,}", *(f"{it:,.2f}" if it < 100 else f"{it:,.0f}" for it in figures), f"{most / 1e6:,.1f}"]


def with_table(text, first, rows):
    """The page with these rows in the table whose first column has this name."""
    table = re.compile(rf"^(\| {first} \|.*\n\|[-:|]+\|\n)(?:\|.*\n)*", re.M)
    lines = "".join(f"| {' | '.join(row)} |\n" for row in rows)
    return table.sub(lambda found: found[1] + lines, text, count=1)


def main(words):
    ask = argparse.ArgumentParser(description=__doc__, formatter_class=argparse.RawDescriptionHelpFormatter)
    for beside in BESIDE:
        ask.add_argument(f"--{beside}", nargs="+", metavar="FILE")
    wanted = vars(ask.parse_args(words))
    try:
        import matplotlib
        from matplotlib import pyplot
    except ImportError:
        sys.exit("this Python has no matplotlib (Debian's package python3-matplotlib brings it for /usr/bin/python3)")
    write_ratios(read_ratios() | {beside: medians(wanted[beside]) for beside in BESIDE if wanted[beside]})
    ratios, growth = read_ratios(), read_growth()
    matplotlib.use("svg")
    matplotlib.rcParams.update(STYLE)
    save(draw_ratios(pyplot, ratios), "ratios.svg")
    save(draw_growth(pyplot, *growth), "growth.svg")
    with open(PAGE, encoding="utf-8") as it:
        text = it.read()
    with open(PAGE, "w", encoding="utf-8") as it:
        it.write(with_table(with_table(text, "Load", ratio_rows(ratios)), "Domains", growth_rows(*growth)))
    return 0


if __name__ == "__main__":
    sys.exit(main(sys.argv[1:]))
