#!/usr/bin/env python3
"""Writes results.md and results.svg from what bench/run measured: `report.py MEASURED FOLDER`.

MEASURED has lines `machine WHAT TEXT`, `plan CASE KIND ROWS CHAINS` and `run CASE READER KIND`; behind a `run` stands
what the reader printed. Of several runs of one sort the quickest counts, for the loads and for the reads.
"""

import pathlib
import re
import sys

CASES = {
    "four": "four headers: Ethernet, tag, IPv4, TCP",
    "campus": "campus graph, a mix of packets",
    "worst": "campus graph, nine headers",
}
# What reads, and by which plan, in the order of the table and of the bars, with the colour of its bar.
READERS = [
    (("fixed", "without"), "fixed C", "#555555"),
    (("counted", "without"), "fixed C, counting", "#aaaaaa"),
    (("listing", "without"), "listing", "#9ecae9"),
    (("listing", "with"), "listing, chains", "#1f6fb4"),
    (("sliced", "without"), "sliced", "#a1d99b"),
    (("sliced", "with"), "sliced, chains", "#238b45"),
    (("pile", "without"), "pile", "#fdbe85"),
    (("pile", "with"), "pile, chains", "#d9600a"),
]


class Measured:
    """What was measured: the machine, the plans, and the least times of each sort of run."""

    def __init__(self, lines):
        self.machine = {}
        self.plans = {}
        self.runs = {}
        self.count = {}
        run = None
        for line in lines:
            word, _, rest = line.strip().partition(" ")
            if word == "machine":
                what, _, self.machine[what] = rest.partition(" ")
            elif word == "plan":
                case, kind, rows, chains = (rest + " ").split(" ", 3)
                self.plans[case, kind] = (int(rows), chains.strip())
            elif word == "run":
                case, reader, kind = rest.split()
                run = self.runs.setdefault((case, (reader, kind)), {})
                self.count[case, (reader, kind)] = self.count.get((case, (reader, kind)), 0) + 1
            else:
                take(run, line)

    def per_header(self, case, reader):
        """Nanoseconds for each header, or none if the reader was not measured."""
        run = self.runs.get((case, reader))
        return run and run["ns a read"] * run["reads"] / run["headers"]


def take(run, line):
    """A line that a reader printed: `reads: 1000000, 210 ns each`, or a count alone."""
    found = re.fullmatch(r"(\w+): (\d+)(?:, ([\d.]+) ns each)?", line.strip())
    if found and found[1] in ("loads", "reads", "headers", "questions"):
        what, count, time = found.groups()
        run[what] = int(count)
        if time:
            name = f"ns a {what[:-1]}"
            run[name] = min(float(time), run.get(name, float(time)))


def check(measured):
    """Fails unless every reader told what it has to, and all readers of a case marked as many headers for each read."""
    for (case, reader), run in measured.runs.items():
        wanted = {"reads", "headers", "ns a read"}
        if reader[0] not in ("fixed", "counted"):
            wanted |= {"loads", "ns a load", "questions"}
        if wanted - run.keys():
            sys.exit(f"report.py: {' '.join(reader)} did not tell {', '.join(wanted - run.keys())} of {case}")
        fixed = measured.runs[case, ("fixed", "without")]
        ours, wanted = run["headers"] / run["reads"], fixed["headers"] / fixed["reads"]
        if abs(ours - wanted) > 0.001 * wanted:
            sys.exit(f"report.py: {' '.join(reader)} marks {ours} headers a read of {case}, and not {wanted}")


# The table

HEADINGS = ["case", "read by", "chains", "rows", "ns per read", "ns per header", "million reads per second",
            "questions per read", "times fixed C", "times counting", "load, µs"]
LEFT = 3  # columns that are words


def row(measured, case, reader, name):
    run = measured.runs.get((case, reader))
    rows, chains = measured.plans[case, reader[1]]
    by_tap = reader[0] not in ("fixed", "counted")
    words = [case, name.replace(", chains", ""), (chains or "none") if by_tap else "",
             str(rows) if by_tap else ""]
    if run is None:
        return words + ["-"] * 7
    time = run["ns a read"]
    ratios = [f"{time / measured.runs[case, (fixed, 'without')]['ns a read']:.1f}" for fixed in ("fixed", "counted")]
    numbers = [f"{time:.1f}", f"{measured.per_header(case, reader):.1f}", f"{1000 / time:.2f}"]
    questions = f"{run['questions'] / run['reads']:.2f}" if by_tap else ""
    load = f"{run['ns a load'] / 1000:.1f}" if by_tap else ""
    return words + numbers + [questions] + ratios + [load]


def aligned(rows):
    """A table whose columns are as wide as their widest entry."""
    widths = [max(len(row[column]) for row in rows) for column in range(len(rows[0]))]

    def line(row):
        cells = [cell.ljust(width) if column < LEFT else cell.rjust(width)
                 for column, (cell, width) in enumerate(zip(row, widths))]
        return "| " + " | ".join(cells) + " |\n"

    rule = ["-" * width if column < LEFT else "-" * (width - 1) + ":" for column, width in enumerate(widths)]
    return line(rows[0]) + line(rule) + "".join(line(row) for row in rows[1:])


def table(measured):
    rows = [HEADINGS]
    for case in CASES:
        rows += [row(measured, case, reader, name) for reader, name, _ in READERS]
    return aligned(rows)


def page(measured):
    machine = measured.machine
    repeats = min(measured.count.values())
    text = "# Results\n\nWritten by `bench/run`; `docs/BENCHMARKS.md` says what is measured, and how.\n\n"
    text += table(measured)
    text += "\nA dash: the store does not take the rows of the graph and the plan. 'Times counting' is the ratio to\n"
    text += "the fixed parser that counts, as a tap does.\n\n"
    text += f"Each time is the least of {repeats} runs.\n\n"
    for what in ("processor", "compiler", "kit", "date"):
        text += f"- {what}: {machine[what]}\n"
    return text + "\n![ns per header by case](results.svg)\n"


# The chart

WIDTH, HEIGHT = 960, 500
LEFT_EDGE, RIGHT_EDGE, TOP, BOTTOM = 70, 940, 110, 440


def text_at(x, y, words, size=13, anchor="middle", more=""):
    return (f'<text x="{x:.1f}" y="{y:.1f}" font-size="{size}" text-anchor="{anchor}"{more}>'
            f"{words}</text>\n")


def step_of(most):
    """The distance of two lines of the scale: 1, 2 or 5 times a power of ten, for four to nine lines."""
    step = 1
    while most / step > 9:
        step = step * 5 // 2 if str(step)[0] == "2" else step * 2
    return step


def scale(top, step):
    drawn = ""
    for value in range(0, top + 1, step):
        y = BOTTOM - (BOTTOM - TOP) * value / top
        drawn += (f'<line x1="{LEFT_EDGE}" x2="{RIGHT_EDGE}" y1="{y:.1f}" y2="{y:.1f}" '
                  f'stroke="{"#333333" if value == 0 else "#dddddd"}"/>\n')
        drawn += text_at(LEFT_EDGE - 8, y + 4, value, anchor="end")
    middle = (TOP + BOTTOM) / 2
    return drawn + text_at(22, middle, "ns per header", 14, more=f' transform="rotate(-90 22 {middle:.1f})"')


def bar(x, width, value, top, colour):
    if value is None:
        return text_at(x + width / 2, BOTTOM - 5, "–", 12)
    height = (BOTTOM - TOP) * value / top
    label = f"{value:.0f}" if value >= 9.95 else f"{value:.1f}"
    return (f'<rect x="{x:.1f}" y="{BOTTOM - height:.1f}" width="{width:.1f}" height="{height:.1f}" '
            f'fill="{colour}"/>\n' + text_at(x + width / 2, BOTTOM - height - 5, label, 12))


def legend():
    drawn = ""
    for number, (_, name, colour) in enumerate(READERS):
        x, y = LEFT_EDGE + number // 2 * 190, 52 + number % 2 * 22
        drawn += f'<rect x="{x}" y="{y}" width="14" height="14" fill="{colour}"/>\n'
        drawn += text_at(x + 20, y + 12, name, anchor="start")
    return drawn


def chart(measured):
    most = max(measured.per_header(case, reader) for case, reader in measured.runs)
    step = step_of(most)
    top = (int(most / step) + 1) * step
    drawn = (f'<svg xmlns="http://www.w3.org/2000/svg" width="{WIDTH}" height="{HEIGHT}" '
             f'viewBox="0 0 {WIDTH} {HEIGHT}" font-family="DejaVu Sans, Arial, sans-serif" fill="#222222">\n'
             f'<rect width="{WIDTH}" height="{HEIGHT}" fill="#ffffff"/>\n')
    drawn += text_at(WIDTH / 2, 30, "Time for each header, by case and by what reads", 18)
    drawn += legend() + scale(top, step)
    group = (RIGHT_EDGE - LEFT_EDGE) / len(CASES)
    width = group / (len(READERS) + 1)
    for number, (case, name) in enumerate(CASES.items()):
        start = LEFT_EDGE + number * group
        for place, (reader, _, colour) in enumerate(READERS):
            value = measured.per_header(case, reader)
            drawn += bar(start + width * (place + 0.5) + 1, width - 2, value, top, colour)
        drawn += text_at(start + group / 2, BOTTOM + 22, name)
    drawn += text_at(WIDTH / 2, HEIGHT - 12, "A dash: the store does not take the rows. "
                     "Shorter is better; 'chains' is with the plan that saves most questions.", 12)
    return drawn + "</svg>\n"


def main():
    measured = Measured(pathlib.Path(sys.argv[1]).read_text().splitlines())
    check(measured)
    folder = pathlib.Path(sys.argv[2])
    (folder / "results.md").write_text(page(measured))
    (folder / "results.svg").write_text(chart(measured))
    print(table(measured), end="")


if __name__ == "__main__":
    main()
