#!/usr/bin/env python3
"""Compares `sigma correlate` with correlations that are worked out plainly, by going through the whole history for each match.

    correlate_plainly.py PROGRAM [--tries N] [--seed S]

PROGRAM is the built program, as crates/sigma_app/out/sigma_app. Each try makes a few rules on one field, correlations of all four types over them (some of which name no rule or no field,
and so are refused), and events whose moments mostly grow, some of which have no moment or come too early. What the program writes on both streams is compared with
what this script works out. It prints the first that differs and keeps its files; the exit status is then 1.
"""
import argparse
import json
import os
import random
import subprocess
import sys
import tempfile

FIELDS = ["Code", "User", "Host"]
UNITS = {"s": 1, "m": 60, "h": 3600, "d": 86400, "w": 604800}
TESTS = {"lt": lambda a, b: a < b, "lte": lambda a, b: a <= b, "gt": lambda a, b: a > b, "gte": lambda a, b: a >= b, "eq": lambda a, b: a == b}


def rule_text(number, code, name, identifier):
    lines = [f"title: Rule {number}"] + ([f"name: {name}"] if name else []) + ([f"id: {identifier}"] if identifier else [])
    return "\n".join(lines + ["logsource:", "  product: test", "detection:", "  sel:", f"    Code: {code}", "  condition: sel"]) + "\n"


def make_rules(rng):
    rules = []
    for number in range(rng.randrange(1, 5)):
        name = rng.choice([None, f"r{rng.randrange(3)}"])
        identifier = rng.choice([None, f"{number:08d}-0000-4000-8000-000000000000"])
        rules.append({"code": rng.randrange(3), "name": name, "id": identifier})
    return rules


def make_correlation(rng, rules, number):
    known = [text for rule in rules for text in (rule["name"], rule["id"]) if text] + ["nobody"] * (rng.random() < 0.1)
    if not known:
        return None
    listed = list(dict.fromkeys(rng.choice(known) for _ in range(rng.randrange(1, 4))))
    kind = rng.choice(["event_count", "value_count", "temporal", "temporal_ordered"])
    made = {"title": f"C{number}", "name": rng.choice([None, f"c{number}"]), "type": kind, "rules": listed, "group-by": rng.choice([[], ["User"], ["User", "Host"], ["who"], ["Nowhere"] if rng.random() < 0.2 else ["Host"]]),
            "span": (rng.randrange(1, 8), rng.choice(["s", "s", "s", "m"])), "condition": [], "field": None, "aliases": {}}
    if "who" in made["group-by"] or rng.random() < 0.1:
        made["aliases"]["who"] = {text: rng.choice(["User", "Host"]) for text in listed if rng.random() < 0.95}
    if kind in ("event_count", "value_count"):
        made["condition"] = [(op, rng.randrange(0, 4)) for op in dict.fromkeys(rng.choice(list(TESTS)) for _ in range(rng.randrange(1, 3)))]
        if kind == "value_count":
            made["field"] = rng.choice(["User", "Host", "Code"])
    return made


def correlation_text(c):
    lines = [f"title: {c['title']}"] + ([f"name: {c['name']}"] if c["name"] else []) + ["correlation:", f"  type: {c['type']}", f"  rules: [{', '.join(c['rules'])}]"]
    if c["group-by"]:
        lines.append(f"  group-by: [{', '.join(c['group-by'])}]")
    lines.append(f"  timespan: {c['span'][0]}{c['span'][1]}")
    if c["condition"]:
        lines.append("  condition:")
        lines += [f"    {op}: {number}" for op, number in c["condition"]] + ([f"    field: {c['field']}"] if c["field"] else [])
    if c["aliases"]:
        lines.append("  aliases:")
        for name, fields in c["aliases"].items():
            lines += [f"    {name}:"] + [f"      {rule}: {field}" for rule, field in fields.items()] if fields else [f"    {name}: {{}}"]
    return "\n".join(lines) + "\n"


def bound(c, rules):
    """The number of each listed rule and the fields of its group, or the code for which the correlation is refused."""
    numbers = []
    for text in c["rules"]:
        found = [at for at, rule in enumerate(rules) if text in (rule["name"], rule["id"])]
        if not found:
            return 141
        numbers.append(found[0])
    for name, fields in c["aliases"].items():
        if name in c["group-by"] and (any(text not in fields for text in c["rules"]) or any(field not in FIELDS for field in fields.values())):
            return 143
    if any(name not in c["aliases"] and name not in FIELDS for name in c["group-by"]):
        return 144
    return numbers, [[c["aliases"].get(name, {}).get(text, name) for name in c["group-by"]] for text in c["rules"]]


def text_of(value):
    return None if value is None else str(value)


def fires(c, window):
    """Whether the correlation fires in a window, and what it counts."""
    if c["type"] == "event_count":
        return all(TESTS[op](len(window), number) for op, number in c["condition"]), len(window)
    if c["type"] == "value_count":
        count = len({m["counted"] for m in window} - {None})
        return all(TESTS[op](count, number) for op, number in c["condition"]), count
    if c["type"] == "temporal":
        return all(any(m["place"] == place for m in window) for place in range(len(c["rules"]))), len(window)
    ends = [set() for _ in c["rules"]]
    for at, m in enumerate(window):
        if m["place"] == 0 or any(end < at for end in ends[m["place"] - 1]):
            ends[m["place"]].add(at)
    return len(window) - 1 in ends[-1], len(window)


def worked_out(rules, correlations, places, events):
    out, err, history, bounds = [], [], [], []
    for c, place in zip(correlations, places):
        found = bound(c, rules)
        if isinstance(found, int):
            err.append(f"c.yml:{place}:1: {found} " + {141: "UnknownRule", 143: "BadAlias", 144: "UnknownGroupField"}[found])
        else:
            bounds.append((c, *found))
    matches, last = [[] for _ in bounds], None
    for line, event in enumerate(events, 1):
        if "t" not in event:
            err.append(f"events:{line}: 29 NoMoment")
            continue
        if last is not None and event["t"] < last:
            err.append(f"events:{line}: 145 OutOfOrder {event['t'] * 10 ** 9} {last * 10 ** 9}")
            continue
        last = event["t"]
        for number, (c, rule_numbers, groups) in enumerate(bounds):
            span = c["span"][0] * UNITS[c["span"][1]]
            for place, (rule, fields) in enumerate(zip(rule_numbers, groups)):
                group = [text_of(event.get(field)) for field in fields]
                if event.get("Code") != rules[rule]["code"] or None in group:
                    continue
                matches[number].append({"line": line, "t": event["t"], "place": place, "group": group, "counted": text_of(event.get(c["field"])) if c["field"] else None})
                window = [m for m in matches[number] if m["group"] == group and event["t"] - span < m["t"] <= event["t"]]
                fired, count = fires(c, window)
                if fired:
                    out.append(json.dumps({"correlation": c["name"] or c["title"], "line": line, "from": window[0]["line"], "count": count, "group": group}, separators=(",", ":")))
    return "".join(it + "\n" for it in out), "".join(it + "\n" for it in err)


def make_events(rng):
    events, now = [], rng.randrange(100)
    for _ in range(rng.randrange(1, 60)):
        now += rng.choice([0, 0, 1, 1, 2, 5, 70])
        event = {"Code": rng.randrange(3), "User": rng.choice(["a", "b", "A", None]), "Host": rng.choice(["x", "y\"\\", "é"]), "t": max(0, now - (rng.random() < 0.1) * rng.randrange(9))}
        if rng.random() < 0.05:
            del event["t"]
        if rng.random() < 0.2:
            del event[rng.choice(["User", "Host"])]
        events.append(event)
    return events


def main():
    parser = argparse.ArgumentParser(description=__doc__, formatter_class=argparse.RawDescriptionHelpFormatter)
    parser.add_argument("program", help="the built program")
    parser.add_argument("--tries", type=int, default=300, help="how many tries (300)")
    parser.add_argument("--seed", type=int, default=1, help="the seed of the tries (1)")
    told = parser.parse_args()
    program, rng, reports, refused = os.path.abspath(told.program), random.Random(told.seed), 0, 0
    for number in range(told.tries):
        rules = make_rules(rng)
        correlations = [c for c in (make_correlation(rng, rules, it) for it in range(rng.randrange(1, 5))) if c]
        texts = [rule_text(at, rule["code"], rule["name"], rule["id"]) for at, rule in enumerate(rules)] + [correlation_text(c) for c in correlations]
        places = [1 + sum(it.count("\n") + 1 for it in texts[:at]) for at in range(len(rules), len(texts))]
        events = make_events(rng)
        folder = tempfile.mkdtemp()
        with open(f"{folder}/s.json", "w", encoding="utf-8") as file:
            kinds = {"Code": "whole"}
            json.dump({"fields": [{"name": name, "kind": kinds.get(name, "text")} for name in FIELDS], "time": {"at": ["t"], "form": "seconds"}}, file)
        with open(f"{folder}/c.yml", "w", encoding="utf-8") as file:
            file.write("---\n".join(texts))
        lines = "".join(json.dumps(event, separators=(",", ":")) + "\n" for event in events)
        with open(f"{folder}/events", "w", encoding="utf-8") as file:
            file.write(lines)
        ran = subprocess.run([program, "correlate", "--schema", "s.json", "c.yml"], cwd=folder, input=lines.encode(), capture_output=True)
        out, err = worked_out(rules, correlations, places, events)
        got = [json.dumps(json.loads(it), separators=(",", ":")) for it in ran.stdout.decode().splitlines()]
        if got != out.splitlines() or ran.stderr.decode() != err or ran.returncode != (1 if err else 0):
            print(f"try {number} differs, in {folder}: the program wrote\n{ran.stdout.decode()}{ran.stderr.decode()}and by hand it's\n{out}{err}")
            return 1
        reports, refused = reports + len(got), refused + err.count("\n")
        for name in os.listdir(folder):
            os.remove(f"{folder}/{name}")
        os.rmdir(folder)
    print(f"{told.tries} tries, {reports} reports and {refused} refusals, all the same")
    return 0


if __name__ == "__main__":
    sys.exit(main())
