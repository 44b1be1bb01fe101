"""Counts instructions per call of the programs that bench/run has built, and writes the table and the plot.
usage: figures.py PLACE MADE_BY [LOAD]      with a load: where its instructions go, by function
       figures.py PLACE MADE_BY --since     the product beside an earlier one: prints their table"""
import collections
import shutil
import subprocess
import sys
from pathlib import Path

import plot
from loads import LOADS, SIZES, load

FEW, MANY, TOP = 2, 6, 12
PROGRAMS = {"untested": "C reading without form test", "plain": "plain C", "quick": "quick C", "product": "product"}
RATIOS = {"product / plain": ("product", "plain"), "product / quick": ("product", "quick")}
SINCE, CHANGE = {"before": "before", "product": "now"}, {"now / before": ("product", "before")}


def counted(place, program, name, runs):
    """Instructions by function, and what was printed. A short name and no environment: so the stack lies the same wherever this runs."""
    command = [shutil.which("qemu-x86_64"), "-cpu", "Nehalem", "-plugin", "./libcount.so,out=count", "./" + program, str(runs)]
    with open(f"{place}/{name}.run") as file:
        printed = subprocess.run(command, cwd=place, env={}, stdin=file, stdout=subprocess.PIPE, check=True).stdout
    counts = collections.Counter()
    for count, function in (line.split(" ", 1) for line in Path(place, "count").read_text().splitlines()):
        counts[function] += int(count)
    return counts, printed


def per_call(place, program, name, calls):
    """Instructions per call by function, and what was printed. What is done once, before and after the runs, cancels out."""
    few, _ = counted(place, program, name, FEW)
    many, printed = counted(place, program, name, MANY)
    return {function: (many[function] - few[function]) / (MANY - FEW) / calls for function in many}, printed


def measured(place, programs, kind, size):
    """Calls of a load, and what each program takes, by function."""
    name, (text, calls) = f"{kind}-{size}", load(kind, size)
    Path(place, f"{name}.run").write_text(text)
    taken = {program: per_call(place, program, name, calls) for program in programs}
    if len({printed for _, printed in taken.values()}) != 1:
        sys.exit(f"bench: on {name} the programs print different answers")
    return calls, {program: counts for program, (counts, _) in taken.items()}


def by_function(place, kind, size):
    for program, counts in measured(place, PROGRAMS, kind, int(size))[1].items():
        total = sum(counts.values())
        print(f"{PROGRAMS[program]}: {total:,.0f} instructions per call")
        for function, count in sorted(counts.items(), key=lambda pair: -pair[1])[:TOP]:
            print(f"{count:12,.0f} {count / total:6.1%}  {function}")


def table(rows, made_by, programs, ratios):
    head = ["Load", "Transactions", "Calls", *programs.values(), *ratios]
    lines = [f"Instructions per call. {made_by}.", "", f"| {' | '.join(head)} |", "|---|" + "--:|" * (len(head) - 1)]
    for (kind, size), (calls, totals) in rows.items():
        figures = [f"{size:,}", f"{calls:,}", *(f"{totals[program]:,.0f}" for program in programs)]
        quotients = [f"{totals[program] / totals[other]:.2f}" for program, other in ratios.values()]
        lines.append(f"| {' | '.join([kind, *figures, *quotients])} |")
    return "\n".join(lines) + "\n"


def all_loads(place, programs):
    """Of each load, its calls and what each program takes."""
    rows = {}
    for kind, size in ((kind, size) for kind in LOADS for size in SIZES):
        calls, taken = measured(place, programs, kind, size)
        rows[kind, size] = calls, {program: sum(counts.values()) for program, counts in taken.items()}
    return rows


def written(place, made_by):
    rows = all_loads(place, PROGRAMS)
    Path("bench/results.svg").write_text(plot.drawn(rows))
    Path("bench/results.md").write_text(table(rows, made_by, PROGRAMS, RATIOS))
    print(table(rows, made_by, PROGRAMS, RATIOS), end="")


if __name__ == "__main__":
    place, made_by, *rest = sys.argv[1:]
    if not rest:
        written(place, made_by)
    elif rest == ["--since"]:
        print(table(all_loads(place, SINCE), made_by, SINCE, CHANGE), end="")
    else:
        by_function(place, *rest[0].split("-"))
