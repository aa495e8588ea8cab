#!/usr/bin/env python3
"""Draws what `acero_run --report` prints as one SVG picture.

Usage: report_svg.py [REPORT [PICTURE]]; without names it reads standard input and writes standard output.

For each stage there is a lane for each worker, with a bar for each task from its claim to its delivery, coloured by the
node; and below it a strip for each edge, which shows how many batches wait on it after each entry, beside its pause and
resume thresholds, with the spans in which it is paused. Time is the number of the entry in the history.
"""
import sys
from xml.sax.saxutils import escape

COLOURS = ["#4e79a7", "#f28e2b", "#59a14f", "#e15759", "#76b7b2", "#edc948", "#b07aa1", "#9c755f"]
LEFT, STEP, LANE, STRIP, GAP = 130, 14, 22, 60, 14


class Stage:
    """One run of the report: its nodes, its setting, its entries and its peaks."""

    def __init__(self, number):
        self.number, self.nodes, self.setting, self.entries, self.peaks = number, {}, {}, [], {}

    def read(self, line):
        words = line.split()
        if words[0].isdigit():
            inputs = [] if words[1] == "source" else [int(word) for word in words[2:-1]]
            self.nodes[int(words[0])] = (" ".join(words[1:-1]), inputs)
        elif words[0] == "batch":
            self.setting = {words[i]: int(words[i + 1]) for i in range(0, 8, 2)}
        elif words[0] == "peak":
            self.peaks[int(words[1])] = int(words[2])
        else:
            self.entries.append(words)


def stages_of(text):
    stages = []
    for line in text.splitlines():
        if line.startswith("stage "):
            stages.append(Stage(int(line.split()[1])))
        elif line.strip() and stages:
            stages[-1].read(line)
    return stages


def replayed(stage):
    """The bars of the tasks, the waiting count of each edge after each entry, and the spans of its pauses.

    A claim of a fold or a stream takes a batch from an edge; the delivery of an emit, a stream or a tail puts one on the
    node's own edge. Whether a batch of a join has more rows to give is not in the report, so a strip counts the batches
    that were put and taken, and never less than none.
    """
    bars, busy = [], {}
    edges = sorted(stage.peaks)
    waiting, paused_since = {e: 0 for e in edges}, {}
    counts, pauses = {e: [] for e in edges}, []
    for at, words in enumerate(stage.entries):
        if words[0] == "claim":
            worker, node, job = int(words[1]), int(words[2]), words[3]
            busy[worker] = (at, node, job)
            inputs = stage.nodes[node][1]
            if job in ("fold", "stream") and inputs:
                edge = inputs[0] if job == "stream" else inputs[-1]
                waiting[edge] = max(0, waiting[edge] - 1)
        elif words[0] == "deliver":
            begun, node, job = busy.pop(int(words[1]))
            bars.append((int(words[1]), begun, at, node, job))
            if job in ("emit", "stream", "tail") and node in waiting:
                waiting[node] += 1
        elif words[0] == "pause":
            paused_since[int(words[1])] = at
        elif words[0] == "resume":
            pauses.append((int(words[1]), paused_since.pop(int(words[1])), at))
        for edge in edges:
            counts[edge].append(waiting[edge])
    pauses += [(edge, since, len(stage.entries)) for edge, since in paused_since.items()]
    return bars, counts, pauses


def rect(x, y, width, height, fill, title="", opacity=1.0):
    inner = f"<title>{escape(title)}</title>" if title else ""
    return f'<rect x="{x:.1f}" y="{y:.1f}" width="{width:.1f}" height="{height:.1f}" fill="{fill}" opacity="{opacity}">{inner}</rect>'


def label(x, y, text, anchor="start", size=11, fill="#333"):
    return f'<text x="{x:.1f}" y="{y:.1f}" font-size="{size}" text-anchor="{anchor}" fill="{fill}">{escape(text)}</text>'


def drawn_lanes(stage, bars, top):
    parts = []
    for worker in range(1, stage.setting["workers"] + 1):
        y = top + (worker - 1) * (LANE + 6)
        parts.append(label(LEFT - 8, y + LANE - 7, f"worker {worker}", "end"))
        parts.append(rect(LEFT, y, len(stage.entries) * STEP, LANE, "#f2f2f2"))
        for owner, begun, ended, node, job in bars:
            if owner == worker:
                title = f"node {node} ({stage.nodes[node][0]}): {job}, entries {begun + 1} to {ended + 1}"
                colour = COLOURS[(node - 1) % len(COLOURS)]
                parts.append(rect(LEFT + begun * STEP, y + 2, (ended - begun + 1) * STEP - 2, LANE - 4, colour, title))
    return parts, top + stage.setting["workers"] * (LANE + 6)


def drawn_edge(stage, edge, counts, pauses, top):
    high = max([stage.peaks[edge], stage.setting["pause"], 1])
    scale = (STRIP - 12) / high
    base = top + STRIP - 4
    wide = len(stage.entries) * STEP
    parts = [label(LEFT - 8, top + STRIP / 2, f"edge {edge}, peak {stage.peaks[edge]}", "end")]
    for paused, since, until in pauses:
        if paused == edge:
            parts.append(rect(LEFT + since * STEP, top + 4, (until - since) * STEP, STRIP - 8, "#e15759", f"edge {edge} is paused", 0.15))
    for at, count in enumerate(counts[edge]):
        if count:
            colour = COLOURS[(edge - 1) % len(COLOURS)]
            parts.append(rect(LEFT + at * STEP, base - count * scale, STEP, count * scale, colour, f"{count} waiting after entry {at + 1}", 0.8))
    for name, dash in (("pause", "5,3"), ("resume", "2,3")):
        y = base - stage.setting[name] * scale
        parts.append(f'<line x1="{LEFT}" x2="{LEFT + wide}" y1="{y:.1f}" y2="{y:.1f}" stroke="#555" stroke-dasharray="{dash}"/>')
        parts.append(label(LEFT + wide + 4, y + 4, f"{name} {stage.setting[name]}", size=9))
    parts.append(f'<line x1="{LEFT}" x2="{LEFT + wide}" y1="{base}" y2="{base}" stroke="#999"/>')
    return parts


def drawn_stage(stage, top):
    bars, counts, pauses = replayed(stage)
    setting = " ".join(f"{name} {stage.setting[name]}" for name in ("batch", "workers", "pause", "resume"))
    parts = [label(8, top + 14, f"stage {stage.number}: {setting}", size=13)]
    x = LEFT
    for node, (what, _) in sorted(stage.nodes.items()):
        parts.append(rect(x, top + 22, 10, 10, COLOURS[(node - 1) % len(COLOURS)]))
        parts.append(label(x + 14, top + 31, f"{node} {what}"))
        x += 14 + 7 * (len(what) + 4)
    lanes, top = drawn_lanes(stage, bars, top + 42)
    parts += lanes
    for edge in sorted(stage.peaks):
        parts += drawn_edge(stage, edge, counts, pauses, top + GAP / 2)
        top += STRIP + GAP
    return parts, top + GAP, max(x, LEFT + len(stage.entries) * STEP + 70)


def picture(text):
    parts, top, width = [], 6, 400
    for stage in stages_of(text):
        drawn, top, wide = drawn_stage(stage, top)
        parts += drawn
        width = max(width, wide)
    head = f'<svg xmlns="http://www.w3.org/2000/svg" width="{width:.0f}" height="{top:.0f}" font-family="sans-serif">'
    return "\n".join([head, rect(0, 0, width, top, "#ffffff")] + parts + ["</svg>"]) + "\n"


def main(words):
    text = open(words[0], encoding="utf-8").read() if words else sys.stdin.read()
    drawn = picture(text)
    if len(words) > 1:
        with open(words[1], "w", encoding="utf-8") as out:
            out.write(drawn)
    else:
        sys.stdout.write(drawn)


if __name__ == "__main__":
    main(sys.argv[1:])
