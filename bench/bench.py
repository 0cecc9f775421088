#!/usr/bin/env python3
"""The built program beside stock tools on the same logs: seconds, processor seconds, records a second, peak memory and
ratios.

    python3 bench/bench.py [--records N] [--only CASE]... [--best N] [--processors N] [--program PATH]
                           [--beside NAME=PATH]...

Build the program first (`rt run` in crates/summingbird). The stock tools are Debian's packages mawk, datamash and
sqlite3 (`apt-get install mawk datamash sqlite3`); a tool that isn't there is left out. `--beside` adds a program that
takes the same command line. The logs are made with a fixed seed in a temporary folder, so they have the same bytes in
each run. What a program or a tool prints is compared with what this script computes by itself; where they differ, or a
program refuses a case, the table says so, and the status is 1. The ratio is to the seconds of the first program. Peak
memory is that of the largest process of a run, from about 9 MiB on. `--processors` lets each run have so many.

A tool stands in a case where its own language can give the same rows. None of them makes the registers of a HyperLogLog
or the cells of a count-min sketch: there the tools count exactly instead, and only the number of their rows is compared.
"""
import argparse
import os
import random
import shutil
import subprocess
import sys
import tempfile
import time
from collections import Counter
from dataclasses import dataclass, field
from hashlib import sha256
from pathlib import Path

SEED = 7
BATCHES = 30_000
READS = 200
CHUNK = 256
PROGRAM = Path(__file__).resolve().parent.parent / "crates" / "summingbird" / "out" / "summingbird"
SERIAL = ["--workers", "0", "--shards", "1", "--chunk", str(CHUNK)]


# Logs. A key is `k` and a number, an item `i` and a number, so no text needs an escape.

def words_log(draw, number, records):
    """One to six words of 1,000, the lesser numbers more often."""
    words = (f"w{draw.randrange(1000) * draw.randrange(1000) // 1000}" for _ in range(1 + draw.randrange(6)))
    return f"{draw.randrange(60_000_000)}\t{' '.join(words)}"


def few_log(draw, number, records):
    """A key of 100 and a number."""
    return f"{draw.randrange(60_000_000)}\tk{draw.randrange(100)}\t{draw.randrange(-1_000_000, 1_000_000)}"


def many_log(draw, number, records):
    """A key of 100,000 and a number."""
    return f"{draw.randrange(60_000_000)}\tk{draw.randrange(100_000)}\t{draw.randrange(-1_000_000, 1_000_000)}"


def items_log(draw, number, records):
    """A key of 100, a number, and an item of 1,000."""
    return f"{few_log(draw, number, records)}\ti{draw.randrange(1000)}"


def days_log(draw, number, records):
    """Batch after batch, with a key of 100 and a number."""
    batch = number * BATCHES // records
    return f"{batch * 1000 + draw.randrange(1000)}\tk{draw.randrange(100)}\t{draw.randrange(-1000, 1000)}"


LOGS = {"words": words_log, "few": few_log, "many": many_log, "items": items_log, "days": days_log}
FIELDS = {"words": "body: text", "few": "k: text, v: int", "many": "k: text, v: int",
          "items": "k: text, v: int, item: text", "days": "k: text, v: int"}


def make_log(name, records, path):
    draw = random.Random(SEED)
    with open(path, "w", encoding="ascii") as log:
        for number in range(records):
            log.write(f"s\t{LOGS[name](draw, number, records)}\n")


def columns_of(path):
    """The fields of each record."""
    with open(path, encoding="ascii") as log:
        for line in log:
            yield line.rstrip("\n").split("\t")[2:]


# What is wanted: the rows that a tool prints, as a set of texts, and those of the report, as a list of (key, value).

def plain(values):
    """The rows of a store whose values are numbers."""
    return {f"{key}\t{value}" for key, value in values.items()}, [(key, str(value)) for key, value in values.items()]


def word_count(log):
    sums = Counter()
    for body, in columns_of(log):
        sums.update(body.split(" "))
    return plain(sums)


def sum_by_key(log):
    sums = Counter()
    for key, value in columns_of(log):
        sums[key] += int(value)
    return plain(sums)


def min_by_key(log):
    least = {}
    for key, value in columns_of(log):
        least[key] = min(int(value), least.get(key, 1 << 63))
    return plain(least)


def top_by_key(log):
    scored = {}
    for key, value, item in columns_of(log):
        scored.setdefault(key, []).append((-int(value), item))
    tops = {key: sorted(each)[:10] for key, each in scored.items()}
    rows = {f"{key}\t{-score}\t{item}" for key, top in tops.items() for score, item in top}
    return rows, [(key, "[" + ",".join(f"({-score},{item})" for score, item in top) + "]") for key, top in tops.items()]


def set_by_key(log):
    items = {}
    for key, _, item in columns_of(log):
        items.setdefault(key, set()).add(item)
    rows = {f"{key}\t{item}" for key, each in items.items() for item in each}
    return rows, [(key, "{" + ",".join(sorted(each)) + "}") for key, each in items.items()]


def map_by_key(log):
    maps = {}
    for key, value, item in columns_of(log):
        maps.setdefault(key, Counter())[item] += int(value)
    rows = {f"{key}\t{item}\t{value}" for key, sums in maps.items() for item, value in sums.items()}
    report = [(key, "{" + ",".join(f"{item}={sums[item]}" for item in sorted(sums)) + "}") for key, sums in maps.items()]
    return rows, report


def first_bits(item):
    """The first eight bytes of SHA-256 as a number."""
    return int.from_bytes(sha256(item).digest()[:8], "big")


def distinct(log):
    """Registers over the keys as items; a tool prints how many there are."""
    bits, items = 12, {key for key, _ in columns_of(log)}
    registers = [0] * (1 << bits)
    for item in items:
        number = first_bits(item.encode())
        register, rest = number >> (64 - bits), number & ((1 << (64 - bits)) - 1)
        registers[register] = max(registers[register], 65 - bits - rest.bit_length())
    return {str(len(items))}, [("all", "".join(f"{position:02x}" for position in registers))]


def cells(log):
    """Cells over the keys as items; a tool prints a row for each item."""
    depth, width = 4, 256
    counts = Counter(key for key, _ in columns_of(log))
    sums = [0] * (depth * width)
    for item, count in counts.items():
        for row in range(depth):
            sums[row * width + first_bits(bytes([row]) + item.encode()) % width] += count
    return plain(counts)[0], [("all", "[" + ",".join(map(str, sums)) + "]")]


# Scripts.

def reads(records):
    """A 200th part of the chunks before each read."""
    part = max(1, -(-records // CHUNK) // READS)
    return "".join(f"work {part}\nread t k{number % 100}\n" for number in range(READS))


def all_batches(records):
    return "publish 65536\n"


@dataclass
class Case:
    """A log, a store over it, and how the tools say the same. Without a script it is `batch`, else `run`."""
    name: str
    log: str
    store: str
    wanted: object
    awk: str = ""
    sql: str = ""
    datamash: list = field(default_factory=list)
    shell: str = ""
    script: object = None
    exact: bool = True


SUM_BY_KEY = "s | map (it.k, it.v) | sumByKey sum"
SUM_AWK = '{ t[$3] += $4 } END { for (k in t) printf "%s\\t%d\\n", k, t[k] }'
SUM_SQL = "select k, sum(v) from r group by k;"

CASES = [
    Case("words", "words", "s | flatMap words(lower(it.body), 64) | map (it, 1) | sumByKey sum", word_count,
         awk='{ n = split(tolower($3), w, /[ \\t\\r\\n]+/); for (i = 1; i <= n; i++) if (w[i] != "") t[w[i]]++ } '
             'END { for (k in t) printf "%s\\t%d\\n", k, t[k] }'),
    Case("sum-100", "few", SUM_BY_KEY, sum_by_key, awk=SUM_AWK, sql=SUM_SQL, datamash=["-s", "-g3", "sum", "4"]),
    Case("sum-100k", "many", SUM_BY_KEY, sum_by_key, awk=SUM_AWK, sql=SUM_SQL, datamash=["-s", "-g3", "sum", "4"]),
    Case("min", "many", "s | map (it.k, it.v) | sumByKey min", min_by_key,
         awk='!($3 in t) || $4 < t[$3] { t[$3] = $4 } END { for (k in t) printf "%s\\t%d\\n", k, t[k] }',
         sql="select k, min(v) from r group by k;", datamash=["-s", "-g3", "min", "4"]),
    Case("top-10", "items", "s | map (it.k, (it.v, it.item)) | sumByKey top(10)", top_by_key,
         sql="select k, v, item from (select k, v, item, row_number() over (partition by k order by v desc, item) as n "
             "from r) where n <= 10;",
         shell="LC_ALL=C sort -t'\t' -k3,3 -k4,4nr -k5,5 LOG | mawk -F'\t' "
               "'$3 != k { k = $3; n = 0 } n++ < 10 { print $3 \"\\t\" $4 \"\\t\" $5 }'"),
    Case("hll-12", "many", 's | map ("all", it.k) | sumByKey hll(12)', distinct,
         awk="!($3 in t) { t[$3]; n++ } END { print n }", sql="select count(distinct k) from r;",
         datamash=["countunique", "3"], exact=False),
    Case("cms-4-256", "many", 's | map ("all", it.k) | sumByKey cms(4, 256)', cells,
         awk='{ t[$3]++ } END { for (k in t) printf "%s\\t%d\\n", k, t[k] }',
         sql="select k, count(*) from r group by k;", datamash=["-s", "-g3", "count", "3"], exact=False),
    Case("set-100", "items", "s | map (it.k, it.item) | sumByKey set", set_by_key,
         awk='!(($3, $5) in t) { t[$3, $5]; print $3 "\\t" $5 }', sql="select distinct k, item from r;"),
    Case("map-100", "items", "s | map (it.k, (it.item, it.v)) | sumByKey map(sum)", map_by_key,
         awk='{ t[$3 "\\t" $5] += $4 } END { for (k in t) printf "%s\\t%d\\n", k, t[k] }',
         sql="select k, item, sum(v) from r group by k, item;", datamash=["-s", "-g3,5", "sum", "4"]),
    Case("reads-200", "few", SUM_BY_KEY, sum_by_key, script=reads),
    Case("publish-30k", "days", SUM_BY_KEY, sum_by_key, script=all_batches),
]


# Runs.

# A process begins with the peak of the one that started it, so a small one starts each run. It has about 9 MiB.
LAUNCHER = """
import os, sys, time
processors, stdin, output, *words = sys.argv[1:]
os.sched_setaffinity(0, sorted(os.sched_getaffinity(0))[:int(processors)])
files = [(os.POSIX_SPAWN_OPEN, 0, stdin, os.O_RDONLY, 0),
         (os.POSIX_SPAWN_OPEN, 1, output, os.O_WRONLY | os.O_CREAT | os.O_TRUNC, 0o600)]
started = time.perf_counter()
child = os.posix_spawnp(words[0], words, os.environ, file_actions=files)
_, status, usage = os.wait4(child, 0)
seconds = time.perf_counter() - started
print(os.waitstatus_to_exitcode(status), seconds, usage.ru_utime + usage.ru_stime, usage.ru_maxrss)
"""


def run(words, stdin, output, processors):
    """The status, the seconds, the processor seconds and the peak memory in KiB of one run."""
    launcher = [sys.executable, "-I", "-S", "-c", LAUNCHER, str(processors), stdin, str(output), *words]
    told = subprocess.run(launcher, stdout=subprocess.PIPE, check=True).stdout.split()
    return int(told[0]), float(told[1]), float(told[2]), int(told[3])


def measure(words, stdin, output, options):
    """Seconds, processor seconds and memory of the fastest run, or None and why."""
    runs = []
    for _ in range(options.best):
        status, *figures = run(words, stdin, output, options.processors)
        if status != 0:
            line = output.read_bytes()[:60].decode("ascii", "replace").split("\n")[0]
            return None, f"status {status}: {line}"
        runs.append(figures)
    return min(runs), ""


def tools_of(case, log, folder):
    """The words and the standard input of each stock tool that can do a case and is there."""
    tools = {}
    if case.awk:
        tools["mawk"] = (["mawk", "-F", "\t", case.awk, str(log)], os.devnull)
    if case.datamash:
        tools["datamash"] = (["datamash", *case.datamash], str(log))
    if case.sql:
        names = [each.split(":")[0] for each in FIELDS[case.log].split(", ")]
        columns = ", ".join(f"{name} {'integer' if name == 'v' else 'text'}" for name in names)
        sql = folder / "sql"
        sql.write_text(f".mode tabs\ncreate table r(source text, time integer, {columns});\n.import {log} r\n{case.sql}\n")
        tools["sqlite3"] = (["sqlite3", ":memory:"], str(sql))
    if case.shell:
        tools["sort, mawk"] = (["sh", "-c", case.shell.replace("LOG", str(log))], os.devnull)
    return {name: tool for name, tool in tools.items() if shutil.which(name.split()[-1])}


def words_of(case, program, log, folder, records):
    """The command line of a program."""
    text, script = folder / "program", folder / "script"
    text.write_text(f"batch 1000 from 0\nsource s ({FIELDS[case.log]})\nstore t = {case.store}\n")
    if not case.script:
        return [str(program), "batch", str(text), str(log)]
    script.write_text(case.script(records))
    return [str(program), "run", str(text), str(log), str(script), *SERIAL]


def report_of(case, output):
    """The report that a program printed: in a run what stands between `drained` and `end`, without lines of taps."""
    lines = output.read_text(encoding="ascii").splitlines()
    if case.script and "drained" in lines:
        lines = [line for line in lines[lines.index("drained") + 1:-1] if not line.startswith("tap ")]
    return lines


def has_rows(case, output, rows):
    lines = output.read_text(encoding="ascii").splitlines()
    return len(lines) == len(rows) and (not case.exact or set(lines) == rows)


def print_row(case, name, records, result, ours, note):
    if result is None:
        print(f"{case.name:12} {name:12} {note}", flush=True)
        return
    seconds, used, memory = result
    ratio = f"{seconds / ours:8.2f}" if ours else f"{'-':>8}"
    figures = f"{seconds:8.2f} {used:8.2f} {records / seconds:10.0f} {memory / 1024:9.0f} {ratio}"
    print(f"{case.name:12} {name:12} {figures} {note}".rstrip(), flush=True)


def run_case(case, programs, log, folder, options):
    """Prints the rows of a case, and tells whether every program gave what is wanted, and every tool that ended well."""
    rows, report = case.wanted(log)
    wanted = [f"t\t{key}\t{value}" for key, value in sorted(report)]
    output, all_agree, ours = folder / "output", True, None
    for name, program in programs.items():
        words = words_of(case, program, log, folder, options.records)
        result, note = measure(words, os.devnull, output, options)
        if result and report_of(case, output) != wanted:
            note = "differs"
        all_agree &= note == ""
        if result and name == next(iter(programs)):
            ours = result[0]
        print_row(case, name, options.records, result, ours, note)
    for name, (words, stdin) in tools_of(case, log, folder).items():
        result, note = measure(words, stdin, output, options)
        if result and not has_rows(case, output, rows):
            note, all_agree = "differs", False
        elif result and not case.exact:
            note = "exact counts"
        print_row(case, name, options.records, result, ours, note)
    return all_agree


def options_of():
    parser = argparse.ArgumentParser(description="The built program beside stock tools.")
    parser.add_argument("--records", type=int, default=1_048_576, help="records of each log, 1 to 1,048,576")
    parser.add_argument("--only", action="append", choices=[case.name for case in CASES], metavar="CASE",
                        help="this case alone, or these: " + ", ".join(case.name for case in CASES))
    parser.add_argument("--best", type=int, default=3, help="runs of each, of which the fastest counts")
    parser.add_argument("--processors", type=int, default=len(os.sched_getaffinity(0)), help="how many each run may use")
    parser.add_argument("--program", type=Path, default=PROGRAM)
    parser.add_argument("--beside", action="append", default=[], metavar="NAME=PATH")
    return parser.parse_args()


def main():
    options = options_of()
    programs = {"summingbird": options.program}
    programs.update((name, Path(path)) for name, _, path in (each.partition("=") for each in options.beside))
    for name, program in programs.items():
        if not os.access(program, os.X_OK):
            sys.exit(f"{name}: {program} isn't there: run `rt run` in crates/summingbird first, or name it by --program")
    cases = [case for case in CASES if not options.only or case.name in options.only]
    print(f"{options.records} records, seed {SEED}, {options.processors} processors, best of {options.best}")
    print("case         program       seconds      cpu  records/s  peak MiB    ratio")
    all_agree, made = True, None
    with tempfile.TemporaryDirectory() as name:
        folder = Path(name)
        log = folder / "log"
        for case in sorted(cases, key=lambda case: list(LOGS).index(case.log)):
            if case.log != made:
                make_log(case.log, options.records, log)
                made = case.log
            all_agree &= run_case(case, programs, log, folder, options)
    return 0 if all_agree else 1


if __name__ == "__main__":
    sys.exit(main())
