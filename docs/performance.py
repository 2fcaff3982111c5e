#!/usr/bin/env python3
"""Writes the tables of PERFORMANCE.md and the plot performance.svg from performance/*.csv.

A table stands between two comments of its name, and everything between them is replaced.
Needs nothing but Python itself.
"""

import csv
import math
import pathlib
import re

HERE = pathlib.Path(__file__).resolve().parent
CALLS = ["read", "start", "greedy", "compile"]
FAMILIES = ["ladder", "random"]
TARGET = 1.5


def rows(name):
    """The rows of one CSV, its numbers as numbers."""
    with open(HERE / "performance" / f"{name}.csv", newline="") as file:
        return [{key: number(value) for key, value in row.items()} for row in csv.DictReader(file)]


def number(text):
    try:
        return float(text) if "." in text else int(text)
    except ValueError:
        return text


def table(heads, lines):
    """A table of Markdown; the first column to the left, all others to the right."""
    out = ["| " + " | ".join(heads) + " |", "|---" + "|---:" * (len(heads) - 1) + "|"]
    out += ["| " + " | ".join(line) + " |" for line in lines]
    return "\n".join(out)


def by_size(all_rows, family):
    """The rows of a family: for each width and count the row of each call."""
    sizes = {}
    for row in all_rows:
        if row["family"] == family:
            sizes.setdefault((row["wires"], row["instructions"]), {})[row["call"]] = row
    return sizes


def microseconds(nanoseconds):
    return f"{nanoseconds / 1000:,.2f}" if nanoseconds < 10_000 else f"{nanoseconds / 1000:,.0f}"


def times_table(times, family):
    def cell(row):
        ratio = row["library_ns"] / row["plain_ns"]
        return f"{microseconds(row['library_ns'])} / {microseconds(row['plain_ns'])} = **{ratio:.1f}**"

    lines = []
    for (wires, count), calls in by_size(times, family).items():
        size = f"{wires} wires, {count:,}"
        lines.append([size, str(calls["greedy"]["pairs"])] + [cell(calls[call]) for call in CALLS])
    return table(["size", "pairs"] + CALLS, lines)


def counts_table(counts):
    def cell(row):
        return f"{row['library']:,} / {row['plain']:,} = **{row['library'] / row['plain']:.1f}**"

    lines = []
    for (wires, count), calls in by_size(counts, "ladder").items():
        lines.append([f"{wires} wires, {count:,}"] + [cell(calls[call]) for call in CALLS])
    return table(["size"] + CALLS, lines)


def growth_table(counts):
    """What one instruction of the circuit costs: flat along a line means linear."""
    sizes = by_size(counts, "ladder")
    number_of = sorted({count for _, count in sizes})
    lines = []
    for call in ["read", "compile"]:
        for program in ["library", "plain"]:
            for wires in sorted({wires for wires, _ in sizes}):
                each = [sizes[wires, count][call][program] / count for count in number_of]
                lines.append([f"{call}, {program}, {wires} wires"] + [f"{n:,.0f}" for n in each])
    return table(["instructions"] + [f"{count:,}" for count in number_of], lines)


def stack_table(stack):
    return table(["call", "bytes"], [[row["call"], f"{row['bytes']:,}"] for row in stack])


def profile_table(profile):
    lines = []
    for call in ["read", "greedy", "compile"]:
        of_call = [row for row in profile if row["call"] == call]
        total = sum(row["instructions"] for row in of_call)
        for row in of_call:
            share = row["instructions"] / total
            if share >= 0.01:
                lines.append([call, f"`{row['function']}`", f"{row['instructions']:,}", f"{share:.0%}"])
    return table(["call", "function", "instructions", "share"], lines)


def targets(times, counts):
    """What the figures say of the targets."""
    lines = []
    for call in ["compile", "greedy"]:
        ratios = [row["library_ns"] / row["plain_ns"] for row in times if row["call"] == call]
        met = "met" if max(ratios) <= TARGET else "missed" if min(ratios) > TARGET else "met in part"
        lines.append(
            f"- `{call}` no slower than {TARGET} times plain Rust: {met}. "
            f"Over all cases the ratio is {min(ratios):.1f} to {max(ratios):.1f}."
        )
    sizes = by_size(counts, "ladder")
    for wires in sorted({wires for wires, _ in sizes}):
        each = [
            calls["compile"]["library"] / count
            for (w, count), calls in sizes.items()
            if w == wires and count >= 256
        ]
        lines.append(
            f"- `compile` linear in instructions at {wires} wires: from 256 to 2,048 instructions each "
            f"costs {min(each):,.0f} to {max(each):,.0f} of the processor's."
        )
    return "\n".join(lines)


def write_page(tables):
    page = HERE / "PERFORMANCE.md"
    text = page.read_text()
    for name, content in tables.items():
        between = re.compile(f"(<!-- {name} -->\n).*?(<!-- end of {name} -->)", re.DOTALL)
        text, found = between.subn(lambda m: f"{m[1]}{content}\n{m[2]}", text)
        assert found == 1, f"PERFORMANCE.md has no place for {name}"
    page.write_text(text)


# The plot: a panel for each call, time against instructions, both by powers.
PANEL_WIDTH, PANEL_HEIGHT, GAP, MARGIN = 300, 260, 70, 60
COLOURS = {4: "#1b7837", 16: "#2166ac", 32: "#b2182b"}


def position(value, low, high, length):
    return length * (math.log(value) - math.log(low)) / (math.log(high) - math.log(low))


def panel(times, call, left):
    """One panel: lines by width, the library's drawn through and those of plain Rust dashed."""
    chosen = [row for row in times if row["call"] == call and row["family"] == "ladder"]
    low, high = 10, 10_000_000
    out = [
        f'<text x="{left + PANEL_WIDTH / 2}" y="{MARGIN - 12}" text-anchor="middle" font-weight="bold">{call}</text>'
    ]
    for power in range(1, 8):
        y = MARGIN + PANEL_HEIGHT - position(10**power, low, high, PANEL_HEIGHT)
        label = ["10 ns", "100 ns", "1 µs", "10 µs", "100 µs", "1 ms", "10 ms"][power - 1]
        out.append(f'<line x1="{left}" y1="{y:.1f}" x2="{left + PANEL_WIDTH}" y2="{y:.1f}" stroke="#ddd"/>')
        out.append(f'<text x="{left - 6}" y="{y + 4:.1f}" text-anchor="end">{label}</text>')
    for count in sorted({row["instructions"] for row in chosen}):
        x = left + position(count, 64, 2048, PANEL_WIDTH)
        out.append(f'<text x="{x:.1f}" y="{MARGIN + PANEL_HEIGHT + 18}" text-anchor="middle">{count}</text>')
    for wires, colour in COLOURS.items():
        for program, dash in [("library_ns", ""), ("plain_ns", ' stroke-dasharray="5 4"')]:
            points = " ".join(
                f"{left + position(row['instructions'], 64, 2048, PANEL_WIDTH):.1f},"
                f"{MARGIN + PANEL_HEIGHT - position(row[program], low, high, PANEL_HEIGHT):.1f}"
                for row in chosen
                if row["wires"] == wires
            )
            out.append(f'<polyline points="{points}" fill="none" stroke="{colour}" stroke-width="2"{dash}/>')
    return out


def plot(times):
    calls = ["read", "compile", "greedy"]
    width = MARGIN + len(calls) * (PANEL_WIDTH + GAP)
    height = PANEL_HEIGHT + 2 * MARGIN + 30
    out = [
        f'<svg xmlns="http://www.w3.org/2000/svg" viewBox="0 0 {width} {height}" '
        'font-family="sans-serif" font-size="12">',
        f'<rect width="{width}" height="{height}" fill="white"/>',
    ]
    for index, call in enumerate(calls):
        out += panel(times, call, MARGIN + index * (PANEL_WIDTH + GAP))
    y = height - 18
    x = MARGIN
    for wires, colour in COLOURS.items():
        out.append(f'<line x1="{x}" y1="{y}" x2="{x + 30}" y2="{y}" stroke="{colour}" stroke-width="2"/>')
        out.append(f'<text x="{x + 36}" y="{y + 4}">{wires} wires</text>')
        x += 110
    out.append(
        f'<text x="{x}" y="{y + 4}">time of one call against the instructions of the circuit '
        "(ladder); drawn through: the library, dashed: plain Rust</text>"
    )
    out.append("</svg>")
    (HERE / "performance.svg").write_text("\n".join(out) + "\n")


def main():
    times, counts = rows("times"), rows("counts")
    write_page(
        {
            "targets": targets(times, counts),
            "times of ladders": times_table(times, "ladder"),
            "times of random circuits": times_table(times, "random"),
            "counts": counts_table(counts),
            "growth": growth_table(counts),
            "profile": profile_table(rows("profile")),
            "stack": stack_table(rows("stack")),
        }
    )
    plot(times)


main()
