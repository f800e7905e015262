"""report.py OUT [DOCS]: from what bench/run left in OUT prints `ratio NAME VALUE` for each row, and writes DOCS/BENCHMARK.md and DOCS/check-time.svg,
with the processor in the names where it is not x86-64, the archive's."""
import datetime
import math
import pathlib
import platform
import subprocess
import sys

MAKERS = ["library", "rust", "c"]
SHAPES = {"mixed": "mixed", "deep": "40 frames deep, checks only", "shallow": "shallow, mostly checks", "calls": "calls and returns"}
SHOWN_DEPTHS = [1, 2, 4, 8, 16, 24, 32, 40, 48, 56, 63]


def times(out):
    """The best time of each row and depth by each maker over all processes, what was said of rounds and agreement, and how far the median round lies above the best."""
    best, above, said = {}, [], {"agreed": 0, "rounds": 0}
    for path in sorted(out.glob("times.*")):
        for line in path.read_text().splitlines():
            kind, *rest = line.split()
            if kind == "agreed":
                said[kind] = int(rest[0])
                continue
            if kind == "rounds":
                said[kind] += int(rest[0])
                continue
            name, figures = tuple(rest[:-6]), [float(f) for f in rest[-6:]]
            kept = best.setdefault(name, figures[:3])
            best[name] = [min(a, b) for a, b in zip(kept, figures)]
            above += [median / least - 1 for least, median in zip(figures, figures[3:])]
    return best, said, sorted(above)[len(above) // 2]


def instructions(out):
    """Instructions for one word or operation: the difference of two calls, so that the driver's start cancels."""
    def dumped(number):
        lines = (out / "counted" / f"dump.{number}").read_text().splitlines()
        return next(int(line.split()[1]) for line in lines if line.startswith("totals:"))

    counts = {}
    for i, line in enumerate((out / "counts").read_text().splitlines()):
        _, name, maker, count = line.split()
        counts.setdefault((name,), {})[maker] = (dumped(2 * i + 2) - dumped(2 * i + 1)) / int(count)
    return {name: [by[m] for m in MAKERS] for name, by in counts.items()}


def jvm(out):
    best = {}
    for path in out.glob("jvm.*"):
        for line in path.read_text().splitlines():
            _, depth, ns = line.split()
            best[int(depth)] = min(float(ns), best.get(int(depth), float("inf")))
    return best


def first_line(*command):
    try:
        done = subprocess.run(command, stdout=subprocess.PIPE, stderr=subprocess.STDOUT, text=True, check=True)
    except (OSError, subprocess.CalledProcessError):
        return "none"
    return done.stdout.splitlines()[0]


def field(path, name, otherwise):
    for line in pathlib.Path(path).read_text().splitlines():
        if line.startswith(name):
            return line.split(":", 1)[1].strip()
    return otherwise


def processor():
    said = subprocess.run(["lscpu"], stdout=subprocess.PIPE, text=True).stdout.splitlines()
    return next((line.split(":", 1)[1].strip() for line in said if line.startswith("Model name")), "of an unknown kind")


def machine():
    memory = int(field("/proc/meminfo", "MemTotal", "0 kB").split()[0]) / 2**20
    return [
        ("date", datetime.date.today().isoformat()),
        ("processor", f"{processor()}, {platform.machine()}"),
        ("memory", f"{memory:.0f} GiB"),
        ("library", first_line("rt", "version") + COMPILED),
        ("Rust", first_line("rustc", "--version") + ", `-C opt-level=3`"),
        ("C", first_line("gcc", "--version") + ", `-O3`"),
        ("Java", first_line("java", "-version")),
    ]


def figure(value):
    return f"{value:.1f}" if value < 100 else f"{value:.0f}"


def table(head, rows):
    lines = ["| " + " | ".join(head) + " |", "|" + "|".join(["---"] + ["---:"] * (len(head) - 1)) + "|"]
    return "\n".join(lines + ["| " + " | ".join(row) + " |" for row in rows]) + "\n"


def titles():
    """What each row is called in the tables, table by table."""
    runs = {(f"{e}-run-{s}",): f"{e}, {said}" for e in ("walk", "record", "passed") for s, said in SHAPES.items()}
    operations = {(f"{e}-operate-{d}",): f"{e}, check under {d} frames" for e in ("walk", "record") for d in (4, 40, 63)}
    operations.update({(f"passed-{o}",): f"passed state, {o}" for o in ("call", "enable", "disable", "revert", "check")})
    derivations = {(f"derivation-{w}-{n}",): f"{w}, n = {n}" for w in ("write", "check") for n in (1, 40, 63)}
    return [("A run, per word", runs), ("One operation, with every refusal tested", operations), ("A derivation of 3n + 1 steps", derivations)]


def comparison(names, best, counts):
    head = ["", "library ns", "Rust ns", "C ns", "library / Rust", "instructions", "Rust", "C", "library / Rust"]
    rows = []
    for name, title in names.items():
        ns, count = best[name], counts[name]
        rows.append([title, *map(figure, ns), f"{ns[0] / ns[1]:.2f}", *map(figure, count), f"{count[0] / count[1]:.2f}"])
    return table(head, rows)


def by_depth(best, java):
    head = ["depth", "walk: library", "Rust", "C", "record: library", "Rust", "passed: library", "Rust"] + (["Java"] if java else [])
    rows = []
    for d in SHOWN_DEPTHS:
        walk, record, passed = (best[(engine, str(d))] for engine in ("walk", "record", "passed"))
        rows.append([str(d), *map(figure, walk + record[:2] + passed[:2])] + ([figure(java[d])] if java else []))
    return table(head, rows)


# The archive is for x86-64; elsewhere it is the same bitcode, compiled for the processor that it runs on.
SUFFIX, COMPILED = ("", "") if platform.machine() == "x86_64" else (f"-{platform.machine()}", ", its bitcode compiled for this processor")

HOW = """# Benchmark

Made by `make bench`. The library, a Rust peer (`bench/peer.rs`) and a plain C peer (`bench/peer.c`) answer the same
inputs in one process. The peers are hand-written for speed over the same layouts, by the same algorithms, with every
test that document 01 asks for; before anything is timed, each number, figure, answer byte and state word of theirs was
compared with the library's ({agreed} comparisons, damaged policies, states, words and steps among them).

{machine}
## How to read it

Nanoseconds are the best of {rounds} rounds, in which the three take turns, over three link orders and several processes:
where a loop happens to lie in memory moves it by a tenth and more, and other work on the machine adds to a round (the
median round lies {above:.0f} % above the best of its process). A ratio below 1 means that the library is quicker. Instructions
are callgrind's, the difference of two counts so that start-up cancels; the driver's own loop and call, some ten
instructions, are in all three.

Policy: 8 signers, 40 targets. Traces: 16,384 words. A single operation or a derivation first tests the whole policy
(13) and the whole state (14), which a run does once. The check under d frames walks all of them: the bottom frame has
enabled the target. The passed run calls itself at each call word in all three.

"""

DEPTHS = """## A check against depth

One check with every refusal tested, in nanoseconds.
{java}

![check time against depth](check-time{suffix}.svg)

"""

JAVA = """The Java column is the platform's own `AccessController.checkPermission`, for scale: as many frames, of eight protection
domains in turn, each granted the permission, the bottom one privileged; it tests no state for damage, and before it is
timed a frame without the permission is seen to be refused at every place."""

NO_JAVA = "No JDK of version 17 to 23 is installed here, so the Java platform's own walk is left out."


def page(best, said, above, counts, java):
    facts = table(["", ""], machine()).replace("---:", "---")
    text = HOW.format(agreed=f"{said['agreed']:,}", machine=facts, above=100 * above, rounds=f"{said['rounds']:,}")
    for title, names in titles():
        text += f"## {title}\n\n{comparison(names, best, counts)}\n"
    return text + DEPTHS.format(java=JAVA if java else NO_JAVA, suffix=SUFFIX) + by_depth(best, java)


# The plot: depth to the right, nanoseconds upwards. Java's walk and ours are far apart, so the scale is logarithmic.
LEFT, RIGHT, TOP, BOTTOM = 70, 600, 50, 400
INK = {"library": "#0b5fa5", "Rust": "#d1571b", "C": "#2e8b57", "Java": "#7a4fa3"}
DASH = {"library": "", "Rust": "6 3", "C": "2 3", "Java": ""}


def scales(series):
    highest = max(max(points.values()) for points in series.values())
    lowest = min(min(points.values()) for points in series.values())
    first, last = math.floor(math.log10(lowest)), math.ceil(math.log10(highest))
    across = lambda depth: LEFT + (RIGHT - LEFT) * depth / 64
    up = lambda ns: BOTTOM - (BOTTOM - TOP) * (math.log10(ns) - first) / (last - first)
    return across, up, [10**power for power in range(first, last + 1)]


def text_at(x, y, words, anchor="middle", more=""):
    return f'<text x="{x:.1f}" y="{y:.1f}" text-anchor="{anchor}"{more}>{words}</text>'


def axes(across, up, decades):
    parts = []
    for ns in decades:
        parts += [f'<line x1="{LEFT}" y1="{up(ns):.1f}" x2="{RIGHT}" y2="{up(ns):.1f}" stroke="#cccccc"/>', text_at(LEFT - 8, up(ns) + 4, f"{ns:,}", "end")]
        for step in range(2, 10) if ns < decades[-1] else []:
            parts.append(f'<line x1="{LEFT}" y1="{up(ns * step):.1f}" x2="{LEFT + 5}" y2="{up(ns * step):.1f}" stroke="#666666"/>')
    for depth in range(0, 65, 8):
        x = across(depth)
        parts += [f'<line x1="{x:.1f}" y1="{BOTTOM}" x2="{x:.1f}" y2="{BOTTOM + 5}" stroke="#666666"/>', text_at(x, BOTTOM + 20, str(depth))]
    parts.append(f'<path d="M{LEFT} {TOP}V{BOTTOM}H{RIGHT}" fill="none" stroke="#333333"/>')
    return parts


def curve(name, points, across, up):
    path = "M" + " L".join(f"{across(d):.1f} {up(ns):.1f}" for d, ns in sorted(points.items()))
    return f'<path d="{path}" fill="none" stroke="{INK[name]}" stroke-width="2" stroke-dasharray="{DASH[name]}"/>'


def legend(names):
    parts = []
    for i, name in enumerate(names):
        x = LEFT + 20 + 130 * i
        parts.append(f'<line x1="{x}" y1="34" x2="{x + 28}" y2="34" stroke="{INK[name]}" stroke-width="2" stroke-dasharray="{DASH[name]}"/>')
        parts.append(text_at(x + 34, 38, name if name != "library" else "Galmuvesh", "start"))
    return parts


def plot(series):
    across, up, decades = scales(series)
    parts = ['<svg xmlns="http://www.w3.org/2000/svg" viewBox="0 0 640 450" font-family="sans-serif" font-size="12">', '<rect width="640" height="450" fill="#ffffff"/>']
    parts.append(text_at(335, 18, "One check that walks every frame", more=' font-size="14"'))
    parts += legend(series) + axes(across, up, decades)
    parts += [curve(name, points, across, up) for name, points in series.items()]
    parts.append(text_at(335, 440, "depth (frames)"))
    parts.append(text_at(18, 225, "nanoseconds (logarithmic)", more=' transform="rotate(-90 18 225)"'))
    return "\n".join(parts + ["</svg>"]) + "\n"


def main(out, docs=None):
    best, said, above = times(out)
    for (name, *depth), ns in best.items():
        if not depth:
            print(f"ratio {name} {ns[0] / ns[1]:.2f}")
    if docs is None:
        return
    java = jvm(out)
    series = {shown: {d: best[("walk", str(d))][m] for d in range(1, 64)} for m, shown in enumerate(("library", "Rust", "C"))}
    if java:
        series["Java"] = java
    (docs / f"BENCHMARK{SUFFIX}.md").write_text(page(best, said, above, instructions(out), java))
    (docs / f"check-time{SUFFIX}.svg").write_text(plot(series))


if __name__ == "__main__":
    main(*map(pathlib.Path, sys.argv[1:]))
