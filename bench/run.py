#!/usr/bin/env python3
"""Times `run` and `query` beside other ways to the same events, in one run for all. Run by hand; it needs a built program.

    python3 bench/run.py PROGRAM [--events N] [--repeats N] [--keep FOLDER]

PROGRAM is the built program, as crates/sigma_app/out/sigma_app. The script makes N events of Windows process creations as JSON lines,
and a rule that some of them match, and prints for each way the least of some times, in seconds of the clock, the events in a second, and
the peak of its memory: `sigma run`; `sigma query` with the rule's query in SQL, and with that in Lucene; Python's `json` with `sqlite3`, which loads the events into a table and runs the rule's own query
there; `sigma correlate` with the rule and one correlation of it, `event_count` by user in a minute; `jq`, where it is installed, with the like filter; `grep -i` for one word;
`wc -l`. The ways take turns, so that a busy machine slows none of them alone. That `sigma run` and `sigma query` select the events that SQLite selects, and that
`sigma correlate` reports what counting the selected events plainly gives, is looked at too. Then the memory of `sigma run` and of `sigma correlate`
is measured at a tenth of the events. With --keep FOLDER the rule (r.yml), the events, the queries (sqlite, lucene) and their schema (schema.json) stay there.
"""
import argparse
import collections
import json
import math
import os
import random
import shutil
import sqlite3
import subprocess
import sys
import tempfile
import time

RULE = r"""title: Encoded command by PowerShell
logsource:
  category: process_creation
  product: windows
detection:
  image:
    Image|endswith:
      - '\powershell.exe'
      - '\pwsh.exe'
  line:
    CommandLine|contains: ' -enc '
  filter:
    User: SYSTEM
    ParentImage|endswith: '\services.exe'
  condition: image and line and not filter
"""
FILTER = r"""select((.Image // "" | ascii_downcase | (endswith("\\powershell.exe") or endswith("\\pwsh.exe")))
    and (.CommandLine // "" | ascii_downcase | contains(" -enc "))
    and (((.User // "" | ascii_downcase) == "system" and (.ParentImage // "" | ascii_downcase | endswith("\\services.exe"))) | not))"""
FIELDS = ["Image", "CommandLine", "User", "ParentImage"]
# How many matches of one user within how many seconds are reported; there are ten events a second.
SPAN, LEAST = 60, 30
CORRELATION = RULE.replace("\n", "\nname: encoded\n", 1) + f"""---
title: Many encoded commands
correlation:
  type: event_count
  rules: encoded
  group-by: User
  timespan: {SPAN}s
  condition:
    gte: {LEAST}
"""


def event(rng, number):
    tool = rng.choice(["cmd", "powershell", "PowerShell", "pwsh", "svchost", "notepad", "chrome", "rundll32"])
    line = rng.choice(["", " -enc ", " -ENC ", " -q ", " /c "]) + str(rng.randrange(10 ** 9))
    return {"Time": number // 10, "UtcTime": f"2026-05-{number % 28 + 1:02} 12:{number % 60:02}:07.{number % 1000:03}", "EventID": 1, "ProcessId": rng.randrange(65536),
            "Image": f"C:\\Windows\\System32\\{tool}.exe", "CommandLine": f"{tool}.exe{line}",
            "User": rng.choice(["SYSTEM", "alice", "bob"]), "ParentImage": rng.choice(["C:\\Windows\\explorer.exe", "C:\\Windows\\services.exe"])}


IN_PYTHON = """
import json, sqlite3, sys
fields = {fields!r}
table = sqlite3.connect(":memory:")
table.execute("create table events (line text, " + ", ".join(f'"{{field}}" text' for field in fields) + ")")
def rows():
    for line in sys.stdin:
        event = json.loads(line)
        yield (line, *(event.get(field) for field in fields))
table.executemany("insert into events values (" + ", ".join("?" * (len(fields) + 1)) + ")", rows())
for row in table.execute({query!r}):
    sys.stdout.write(row[0])
"""


def peak_of(child):
    """The peak of a child's memory in KiB, looked at until it ends; a child that ends at once has none."""
    peak = 0
    while child.poll() is None:
        try:
            with open(f"/proc/{child.pid}/status", encoding="ascii") as file:
                peak = max([peak] + [int(line.split()[1]) for line in file if line.startswith("VmHWM")])
        except (FileNotFoundError, ProcessLookupError):
            break
        time.sleep(0.005)
    return peak


def spent(words, path, out):
    """The seconds of the clock, and the peak of memory in KiB, of a child that reads the file."""
    with open(path, "rb") as source, open(out, "wb") as sink:
        start = time.monotonic()
        child = subprocess.Popen(words, stdin=source, stdout=sink)
        peak = peak_of(child)
        if child.wait():
            sys.exit(f"{words[0]} ended with {child.returncode}")
        return time.monotonic() - start, peak


def reports_of(events, selected):
    """The reports of the correlation, by counting for each selected line those of its user that are at most so long before it."""
    windows, wanted = collections.defaultdict(collections.deque), set(selected.split(b"\n"))
    with open(events, "rb") as file:
        lines = [(number, line.rstrip(b"\n")) for number, line in enumerate(file, 1) if line.rstrip(b"\n") in wanted]
    out = []
    for number, line in lines:
        found = json.loads(line)
        window = windows[found["User"]]
        window.append((number, found["Time"]))
        while window[0][1] <= found["Time"] - SPAN:
            window.popleft()
        if len(window) >= LEAST:
            report = {"correlation": "Many encoded commands", "line": number, "from": window[0][0], "count": len(window), "group": [found["User"]]}
            out.append(json.dumps(report, separators=(",", ":")) + "\n")
    return "".join(out).encode()


def bytes_of(path):
    with open(path, "rb") as file:
        return file.read()


def main():
    parser = argparse.ArgumentParser(description=__doc__, formatter_class=argparse.RawDescriptionHelpFormatter)
    parser.add_argument("program", help="the built program")
    parser.add_argument("--events", type=int, default=1000000, help="how many events (1,000,000)")
    parser.add_argument("--repeats", type=int, default=3, help="how many times (3)")
    parser.add_argument("--keep", help="a folder that the files are copied to")
    told = parser.parse_args()
    program = os.path.abspath(told.program)
    with tempfile.TemporaryDirectory() as folder:
        rule, path, few = (os.path.join(folder, name) for name in ["r.yml", "events", "few"])
        with open(rule, "w", encoding="utf-8", newline="") as file:
            file.write(RULE)
        rng = random.Random(1)
        with open(path, "w", encoding="utf-8", newline="\n") as file:
            for number in range(told.events):
                file.write(json.dumps(event(rng, number), separators=(",", ":")) + "\n")
        with open(path, "rb") as file, open(few, "wb") as front:
            for _ in range(told.events // 10):
                front.write(file.readline())
        query = subprocess.run([program, "convert", "--backend", "sqlite", rule], capture_output=True, check=True).stdout.decode().strip()
        schema = os.path.join(folder, "schema.json")
        with open(schema, "w", encoding="utf-8") as file:
            json.dump({"fields": [{"name": field, "kind": "text"} for field in FIELDS]}, file)
        ways = {"sigma run": [program, "run", rule]}
        for backend in ["sqlite", "lucene"]:
            asked = os.path.join(folder, backend)
            with open(asked, "wb") as file:
                subprocess.run([program, "convert", "--backend", backend, rule], stdout=file, check=True)
            ways[f"sigma query, {backend}"] = [program, "query", "--backend", backend, "--schema", schema, asked]
        correlated, timed = os.path.join(folder, "c.yml"), os.path.join(folder, "timed.json")
        with open(correlated, "w", encoding="utf-8", newline="") as file:
            file.write(CORRELATION)
        with open(timed, "w", encoding="utf-8") as file:
            json.dump({"fields": [{"name": field, "kind": "text"} for field in FIELDS], "time": {"at": ["Time"], "form": "seconds"}}, file)
        ways["sigma correlate"] = [program, "correlate", "--schema", timed, correlated]
        ways |= {"Python's json and sqlite3": [sys.executable, "-c", IN_PYTHON.format(fields=FIELDS, query=query)]}
        if shutil.which("jq"):
            ways["jq"] = ["jq", "-c", FILTER]
        ways["grep -i"] = ["grep", "-i", "powershell"]
        ways["wc -l"] = ["wc", "-l"]
        if told.keep:
            shutil.copytree(folder, told.keep, dirs_exist_ok=True)
        size = os.path.getsize(path)
        print(f"{told.events} events, {size / told.events:.0f} bytes each")
        times, peaks, outs = {way: math.inf for way in ways}, {}, {way: os.path.join(folder, f"out{number}") for number, way in enumerate(ways)}
        for _ in range(told.repeats):
            for way, words in ways.items():
                seconds, peaks[way] = spent(words, path, outs[way])
                times[way] = min(times[way], seconds)
        for way, seconds in times.items():
            print(f"  {way}: {seconds:.3f} s, {told.events / seconds / 1e3:.0f} thousand events/s, {size / seconds / 1e6:.0f} MB/s, {peaks[way]} KiB,"
                  f" {seconds / times['sigma run']:.1f} times sigma run")
        for way in ["sigma run", "sigma correlate"]:
            _, peak = spent(ways[way], few, os.path.join(folder, "few_out"))
            print(f"  {way} over a tenth of them: {peak} KiB")
        lines = bytes_of(outs["sigma run"])
        same = all(bytes_of(outs[way]) == lines for way in ways if way.startswith(("sigma run", "sigma query")) or "sqlite3" in way)
        reports = bytes_of(outs["sigma correlate"])
        counted = reports == reports_of(path, lines)
        print(f"  {lines.count(10)} lines selected, {'the same' if same else 'NOT the same'} as SQLite selects")
        print(f"  {reports.count(10)} reports, {'the same' if counted else 'NOT the same'} as counting the selected lines gives")
        sys.exit(0 if same and counted else 1)


if __name__ == "__main__":
    main()
