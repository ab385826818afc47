"""Prints tables for docs/PERFORMANCE.md; measure.sh says how it is run."""
import filecmp
import os
import random
import resource
import shutil
import statistics
import subprocess
import sys

import mona

SCRATCH = sys.argv[1]
PROGRAM = os.path.abspath(os.environ["PROGRAM"])
BASELINE = os.environ.get("BASELINE")
MONA = os.environ.get("MONA")
REPEAT = int(os.environ.get("REPEAT", "5"))
ENOUGH = 20  # seconds of processor time, past which a case isn't repeated and MONA is stopped
GNU_TIME = shutil.which("time")


def scratch(name):
    return os.path.join(SCRATCH, name)


# Running

def run(command, trace, piped, name, limit=None):
    """The processor time of one run, whose output, message and status are left in two files."""
    feeder = drain = None
    with open(trace or os.devnull) as source, open(scratch(name), "wb") as out, open(scratch(name + ".err"), "wb") as err:
        taken, given = source, out
        if piped:
            feeder = subprocess.Popen(["cat"], stdin=source, stdout=subprocess.PIPE)
            drain = subprocess.Popen(["cat"], stdin=subprocess.PIPE, stdout=out)
            taken, given = feeder.stdout, drain.stdin
        child = subprocess.Popen(command, stdin=taken, stdout=given, stderr=err)
        if limit:
            resource.prlimit(child.pid, resource.RLIMIT_CPU, (limit, limit))
        if piped:
            taken.close()
            given.close()
        _, status, used = os.wait4(child.pid, 0)
        child.returncode = os.waitstatus_to_exitcode(status)
        if piped:
            feeder.wait()
            drain.wait()
        err.write(b"status %d\n" % child.returncode)
    return used.ru_utime + used.ru_stime


def least(command, other=None, trace=None, piped=False):
    """The least times of two commands that take turns, and whether both gave the same."""
    times, others = [], []
    while len(times) < REPEAT and sum(times) + sum(others) < ENOUGH:
        times.append(run(command, trace, piped, "one"))
        if other:
            others.append(run(other, trace, piped, "other"))
    same = all(filecmp.cmp(scratch("one" + end), scratch("other" + end), False) for end in ("", ".err")) if other else None
    return min(times), min(others, default=None), same


def peak(command, trace=None):
    """The peak memory of one run. A child of this process would count its size, so a small program starts it."""
    if not GNU_TIME:
        return "-"
    with open(trace or os.devnull) as source:
        subprocess.run([GNU_TIME, "-q", "-f", "%M", "-o", scratch("peak"), *command], stdin=source,
                       stdout=subprocess.DEVNULL, stderr=subprocess.DEVNULL)
    with open(scratch("peak")) as answer:
        return f"{int(answer.read()) / 1024:.0f} MiB"


# Printing

def seconds(time):
    return f"{time:.2f} s" if time >= 0.1 else f"{time * 1000:.0f} ms" if time >= 0.01 else f"{time * 1000:.1f} ms"


def row(*cells):
    print("|", " | ".join(cell.replace("|", "\\|") for cell in cells if cell), "|", flush=True)


def heading(title, *columns):
    print(f"\n### {title}\n")
    row(*columns)
    print("|" + "|".join("---" for column in columns if column) + "|", flush=True)


RATIO, SAME = ("Ratio", "Same output") if BASELINE else (None, None)
TO_MONA, SAME_COUNT = ("Ratio to MONA", "Same count") if MONA else (None, None)


def yes(same):
    return "yes" if same else "NO"


def compare(shown, words, trace=None, piped=False, locations=False):
    """Prints a row, and answers the ratios to the baseline and to MONA."""
    time, other, same = least([PROGRAM, *words], BASELINE and [BASELINE, *words], trace, piped)
    ratio = other and time / other
    count = locations and location_count()
    to_mona, *cells = against_mona(words, time, count) if MONA and locations else (None,)
    row(shown, count, seconds(time), peak([PROGRAM, *words], trace), ratio and f"{ratio:.1f}", other and yes(same), *cells)
    return ratio, to_mona


def against_mona(words, time, count):
    """The ratio to MONA's time, and the cells for it and for the count of locations."""
    times, nothing = [], (None, "-", "-")
    if words[1] != "ltlf" or not count.isdigit():
        return nothing
    command = [MONA, "-q", "-w", written("program", mona.program(words[2]))]
    while len(times) < REPEAT and sum(times) < ENOUGH:
        times.append(run(command, None, False, "mona", ENOUGH))
        with open(scratch("mona")) as output, open(scratch("mona.err")) as messages:
            automaton = output.read()
            if "status 0\n" not in messages or "Automaton has" not in automaton:
                return nothing
    ratio = time / min(times)
    return ratio, f"{ratio:.2g}", yes(mona.locations(automaton) == int(count))


def location_count():
    with open(scratch("one")) as text, open(scratch("one.err")) as message:
        wholes = [line.split()[1] for line in text if line.startswith("whole ")]
        return wholes[0] if wholes else message.readline().split(",")[0].removeprefix("bes: formula ")


# Traces

def written(name, lines):
    with open(scratch(name), "w") as file:
        file.writelines(lines)
    return scratch(name)


def events(count):
    draw = random.Random(5)
    return written(f"events{count}", (" ".join(n for n in "abcdefgh" if draw.random() < 0.3) + "\n" for _ in range(count)))


# Formulas

def every(parts):
    return " & ".join(parts)


def nested(forms, inner):
    """The forms within each other, the last innermost; @ stands where the next one goes."""
    for form in reversed(forms):
        inner = form.replace("@", inner)
    return inner


def counter(bits):
    """It begins with zero, goes up by one at each event, and has all bits set at some event."""
    names = [f"b{i}" for i in range(bits)]
    flips = [f"G(last | (X {name} <-> ({name} <-> !({every(names[:i]) or 'true'}))))" for i, name in enumerate(names)]
    return every([f"!{name}" for name in names] + flips + [f"F({every(names)})"])


def steps(count, group):
    """A path of single steps, in groups so that few brackets wait."""
    return ";".join(["(" + ";".join(["true"] * group) + ")"] * (count // group))


FAMILIES = [
    *((f"bounded response, `G(a -> X(b | X(b | ..)))`, {n} deep", "G(a -> " + nested(["X(b | @)"] * (n - 1), "X b") + ")") for n in (10, 20)),
    ("untils to the right, `a0 U (a1 U (.. U a16))`", nested([f"a{i} U (@)" for i in range(16)], "a16")),
    ("response chain, `G(a0 -> F a1) & .. & G(a5 -> F a6)`", every(f"G(a{i} -> F a{i + 1})" for i in range(6))),
    ("a conjunction of 32 names", every(f"a{i}" for i in range(32))),
    ("alternating responses, `G(a0 -> X(!a0 U a1)) & ..`, 5", every(f"G(a{i} -> X(!a{i} U a{i + 1}))" for i in range(5))),
    *((f"`F a0 & .. & F a{n - 1}`", every(f"F a{i}" for i in range(n))) for n in (8, 10, 11)),
    *((f"independent responses, `G(a0 -> F b0) & ..`, {n}", every(f"G(a{i} -> F b{i})" for i in range(n))) for n in (7, 9)),
    *((f"untils to the left, `((a0 U a1) U a2) ..`, {n}", nested([f"(@) U a{i}" for i in range(n, 0, -1)], "a0")) for n in (6, 9)),
    *((f"release chain, `a0 R (b | X(a1 R (b | X ..)))`, {n}", nested([f"a{i} R (b | X(@))" for i in range(n)], f"a{n}")) for n in (5, 6, 7)),
    *((f"a counter of {n} bits", counter(n)) for n in (6, 8)),
    *((f"`X` {n} times, `a`", "X " * n + "a") for n in (60, 100, 200, 290)),
    ("`F(a & X^9 last)`", "F(a & " + "X " * 9 + "last)"),
    ("`<(true;..;true)*> end`, 100 steps", f"<({steps(100, 100)})*> end"),
    ("`<true;..;true> end`, 960 steps", f"<{steps(960, 30)}> end"),
    *((f"boxes of stars, `[a0*;b] <true*;{{!a0}}>([a1*;b] .. | last)`, {n}",
       nested([f"[a{i}*;b] <true*;{{!a{i}}}>(@ | last)" for i in range(n)], "end")) for n in (3, 5)),
    ("nested stars with choices, `<(a0;(a1;..;b + c)*;b + c)*> last`, 3",
     f"<{nested([f'(a{i};@;b + c)*' for i in range(3)], 'd*')}> last"),
    ("parities, `<({!a0}*;a0;{!a0}*;a0)*;{!a0}*> end & ..`, 6",
     every(f"<({{!a{i}}}*;a{i};{{!a{i}}}*;a{i})*;{{!a{i}}}*> end" for i in range(6))),
]
FORMULAS = ["true", "G(a -> F b) & (c U d | F(e & X f))", "((a U b) U c) U d",
            "[true*](<a?;true>b | <{c & !d}*>e | end)", "<((a?;true)*;{b & c};true*;(d?;true + e?;true)*)*> end"]


def words(command, formula):
    return [command, "ldlf" if "<" in formula.replace("<->", "") else "ltlf", formula]


def main():
    usage, other, _ = least([PROGRAM], BASELINE and [BASELINE])
    print("Starting, up to the usage line, takes", seconds(usage), f"(the other program {seconds(other)})" if other else "")
    million = events(10 ** 6)

    heading("Judging 10^6 events", "Formula", "Time", "Memory", RATIO, SAME)
    for formula in FORMULAS:
        compare(f"`{formula}`", words("judge", formula), million)

    traces = [events(250_000), events(500_000), million, events(2 * 10 ** 6)]
    heading("Judging by the number of events", "Formula", "0.25 million", "0.5 million", "1 million", "2 million", "Memory at 2 million")
    for formula in FORMULAS:
        command = [PROGRAM, *words("judge", formula)]
        row(f"`{formula}`", *(seconds(least(command, trace=trace)[0]) for trace in traces), peak(command, traces[-1]))

    heading("Reading 2^26 bytes, `judge ltlf true`", "Input", "Time", "Memory", "Ratio to `wc -l`")
    short = written("short", ("a b c d\n" * 1024 for _ in range(2 ** 13)))
    for shown, trace, piped in (("lines of 7 bytes", short, False), ("the same, through a pipe", short, True),
                                ("lines of 4,095 bytes", written("long", ("abc " * 1023 + "abc\n" for _ in range(2 ** 14))), False),
                                ("empty lines", written("empty", ("\n" * 1024 for _ in range(2 ** 16))), False)):
        command = [PROGRAM, *words("judge", "true")]
        time, other, _ = least(command, ["wc", "-l"], trace, piped)
        row(shown, seconds(time), peak(command, trace), f"{time / other:.1f}")

    heading("Watching 10^6 events, `G(a -> F b)`", "Input and output", "Time", "Memory", RATIO, SAME)
    for shown, piped in (("files", False), ("pipes", True)):
        compare(shown, words("monitor", "G(a -> F b)"), million, piped)

    heading("Showing forms", "Formula", "Time", "Memory", RATIO, SAME)
    compare("1,990 tokens, `(a -> !(b <-> c)) & ..`", words("forms", every(["(a -> !(b <-> c))"] * 181)))

    heading("Translating", "Formula", "Locations", "Time", "Memory", RATIO, SAME, TO_MONA, SAME_COUNT)
    ratios = [compare(shown, words("translate", formula), locations=True) for shown, formula in FAMILIES]
    if BASELINE:
        print(f"\nThe median of these ratios is {statistics.median(ratio for ratio, _ in ratios):.1f}.")
    if MONA:
        print(f"\nThe median of the ratios to MONA is {statistics.median(ratio for _, ratio in ratios if ratio):.2g}.")


main()
