#!/usr/bin/env python3
"""Times the reading of events beside Python's `json` and, where it is installed, `jq`. Run by hand, in one run for all.

    python3 bench/events.py PROGRAM [--events N] [--repeats N]

PROGRAM is the built bench, crates/bench/out/bench, which `rt run` in crates/bench makes. The script makes N flat events
of about 210 bytes and as many nested ones of about 580 bytes, and prints for each reader the least of some times, in seconds of processor
time, and the megabytes of input in a second: `lines` alone, `json` (lines and a JSON value each) and `events` (lines, and an event of
a schema of seven fields and a time each). The readers take turns, so that a busy machine slows none of them alone. What `events` costs
beyond `lines`, as a share of what `json` does, stands last.
"""
import argparse
import json
import math
import os
import random
import resource
import shutil
import subprocess
import tempfile
import time


def flat(rng, number):
    return {"UtcTime": f"2026-05-{number % 28 + 1:02} 12:{number % 60:02}:07.{number % 1000:03}", "EventID": 1, "ProcessId": rng.randrange(65536),
            "Image": f"C:\\Windows\\System32\\tool{rng.randrange(1000)}.exe", "CommandLine": f"tool.exe /c {rng.randrange(10 ** 9)} -q",
            "User": rng.choice(["SYSTEM", "alice", "bob"]), "ParentImage": "C:\\Windows\\explorer.exe"}


def nested(rng, number):
    return {"event": {"provider": "Sysmon", "action": "Process Create", "created": "2026-05-01T12:00:00Z", "sequence": number},
            "host": {"name": f"host{rng.randrange(500)}", "ip": ["10.0.0.1", "fe80::1"], "os": {"family": "windows", "version": "10.0"}},
            "process": {"executable": f"C:\\Windows\\System32\\tool{rng.randrange(1000)}.exe", "pid": rng.randrange(65536),
                        "args": ["tool.exe", "/c", str(rng.randrange(10 ** 9))], "hash": {"sha256": "%064x" % rng.getrandbits(256)},
                        "parent": {"executable": "C:\\Windows\\explorer.exe", "pid": 4}},
            "winlog": {"user": {"name": "alice", "domain": "CORP"}, "record_id": number, "task": "Process Create (rule: ProcessCreate)"}}


def child(words, path):
    """The processor time of a child that reads the file."""
    def spent():
        with open(path, "rb") as file:
            before = resource.getrusage(resource.RUSAGE_CHILDREN)
            subprocess.run(words, stdin=file, stdout=subprocess.DEVNULL, check=True)
            after = resource.getrusage(resource.RUSAGE_CHILDREN)
        return after.ru_utime + after.ru_stime - before.ru_utime - before.ru_stime
    return spent


def python_json(path):
    """The processor time of Python's `json` on the file's lines."""
    with open(path, "rb") as file:
        lines = file.read().split(b"\n")[:-1]

    def spent():
        start = time.process_time()
        for line in lines:
            json.loads(line)
        return time.process_time() - start
    return spent


def main():
    parser = argparse.ArgumentParser(description=__doc__, formatter_class=argparse.RawDescriptionHelpFormatter)
    parser.add_argument("program", help="the built bench")
    parser.add_argument("--events", type=int, default=200000, help="how many events (200,000)")
    parser.add_argument("--repeats", type=int, default=5, help="how many times (5)")
    told = parser.parse_args()
    program = os.path.abspath(told.program)
    with tempfile.TemporaryDirectory() as folder:
        for name, make in [("flat", flat), ("nested", nested)]:
            rng, path = random.Random(1), os.path.join(folder, name)
            with open(path, "w", encoding="utf-8", newline="\n") as file:
                for number in range(told.events):
                    file.write(json.dumps(make(rng, number), separators=(",", ":")) + "\n")
            size = os.path.getsize(path)
            print(f"{name}: {told.events} events, {size / told.events:.0f} bytes each")
            readers = {"lines": child([program, "events", "lines"], path), "json": child([program, "events", "json"], path),
                       "events": child([program, "events", "events"] + ["nested"] * (name == "nested"), path), "Python's json": python_json(path)}
            if shutil.which("jq"):
                readers["jq"] = child(["jq", "-c", "length"], path)
            times = {reader: math.inf for reader in readers}
            for _ in range(told.repeats):
                for reader, spent in readers.items():
                    times[reader] = min(times[reader], spent())
            for reader, spent in times.items():
                print(f"  {reader}: {spent:.3f} s, {size / spent / 1e6:.0f} MB/s")
            bare, whole = times["json"] - times["lines"], times["events"] - times["lines"]
            print(f"  events beyond lines: {whole:.3f} s, {bare / whole:.2f} of the speed of bare JSON ({bare:.3f} s)")


if __name__ == "__main__":
    main()
