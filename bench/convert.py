#!/usr/bin/env python3
"""Times `sigma` beside PyYAML on rules that it makes. Run by hand; it needs Python 3, PyYAML and a built program.

    python3 bench/convert.py PROGRAM [--rules N] [--seed S] [--repeat K] [--no-plain] [--keep FOLDER] [--mappings M]

PROGRAM is the built program, as crates/sigma_app/out/sigma_app. It makes N realistic rules, writes them as one file each
and as one file, and runs `convert --backend sqlite` and `check` on them. Beside that PyYAML's two safe loaders, the one
in C and the plain one, merely parse the same files. Then it shows how the times grow from 500 to 4,000 small rules in one
file, and for YAML alone, by `check` on one big document, from 64 KiB to 1 MiB; and the peak memory of `check` on 1 MiB of
YAML by its shape. With `--mappings M` it does none of that: it converts the realistic rules without a pipeline and under one of M
mappings of names, among them one for each name of the rules, and shows both times.

Each time is the least of K runs. A run of the program is a process of its own, from its start to its end; a loader's time
is that of parsing alone, without starting Python. Peak memory is that of the process, Python's own included; less than
some 8 MiB isn't told. The files have at most the 1,048,576 bytes and 4,096 documents that the program takes, so that fewer
rules may stand in one file than were asked for.
"""
import argparse
import os
import random
import sys
import tempfile
import time
import uuid

import processes

MOST_BYTES = 1_048_576
MOST_DOCUMENTS = 4_096
MIB = processes.MIB
PARTING = "---\n"

# ---- rules

PROGRAMS = ["powershell", "pwsh", "cmd", "wscript", "cscript", "mshta", "rundll32", "regsvr32", "certutil", "bitsadmin",
            "schtasks", "wmic", "net", "whoami", "curl", "nltest", "vssadmin", "msbuild"]
FOLDERS = ["C:\\Windows\\System32", "C:\\Windows\\Temp", "C:\\Users\\Public", "C:\\ProgramData", "\\AppData\\Local\\Temp",
           "\\AppData\\Roaming", "/tmp", "/var/tmp", "/usr/local/bin", "/etc/cron.d"]
OPTIONS = [" -enc ", " -w hidden", "/c ", " -urlcache", " -decode ", "http://", "https://", " /create ", " delete shadows",
           "DownloadString", "FromBase64String", " --output ", "javascript:", " /node:", "base64 -d", "100%", "it's", "a_b"]
TEXT_FIELDS = ["Image", "ParentImage", "CommandLine", "ParentCommandLine", "OriginalFileName", "User", "TargetObject",
               "TargetFilename", "DestinationHostname", "QueryName", "Details", "Product", "Company", "CurrentDirectory"]
NUMBER_FIELDS = ["EventID", "DestinationPort", "LogonType", "ProcessId", "StatusCode"]
SOURCES = [("process_creation", "windows"), ("registry_set", "windows"), ("network_connection", "windows"),
           ("file_event", "windows"), ("process_creation", "linux"), ("dns_query", "windows"), ("process_creation", "macos")]
WORDS = ("a the program user starts process writes file under folder that attackers use after they have come in looks for "
         "commands options of tools which are seldom there in normal work and known from reports").split()


def quoted(text):
    """A text in single quotes."""
    return "'" + text.replace("'", "''") + "'"


def some_text(rng):
    kind = rng.randrange(5)
    if kind == 0:
        return "\\" + rng.choice(PROGRAMS) + ".exe"
    if kind == 1:
        return rng.choice(FOLDERS) + "\\" + rng.choice(PROGRAMS) + str(rng.randrange(100)) + ".exe"
    if kind == 2:
        return rng.choice(OPTIONS)
    if kind == 3:
        return "*" + rng.choice(FOLDERS) + "\\\\*" + rng.choice(PROGRAMS) + "?.dll"
    return rng.choice(PROGRAMS) + "-" + rng.choice(WORDS) + str(rng.randrange(1000))


def sentence(rng, count):
    return " ".join(rng.choice(WORDS) for _ in range(count)).capitalize() + "."


def items(rng, indent, count):
    """Lines of a map of items, each with a field of its own."""
    lines = []
    for field in rng.sample(TEXT_FIELDS + NUMBER_FIELDS, count):
        if field in NUMBER_FIELDS:
            numbers = [rng.randrange(65_536) for _ in range(rng.randrange(1, 5))]
            value = str(numbers[0]) if len(numbers) == 1 else "[" + ", ".join(map(str, numbers)) + "]"
            lines.append(f"{indent}{field}: {value}")
            continue
        kind = rng.randrange(12)
        if kind == 0:
            lines.append(f"{indent}{field}: null")
            continue
        if kind == 1:
            lines.append(f"{indent}{field}|exists: {rng.choice(['true', 'false'])}")
            continue
        words = rng.choice(["", "|contains", "|contains", "|endswith", "|endswith", "|startswith", "|contains|all", "|cased"])
        values = [some_text(rng) for _ in range(rng.choice([1, 1, 2, 3, 5, 8]))]
        if len(values) == 1 and rng.randrange(2):
            lines.append(f"{indent}{field}{words}: {quoted(values[0])}")
        else:
            lines.append(f"{indent}{field}{words}:")
            lines += [f"{indent}    - {quoted(value)}" for value in values]
    return lines


def detection(rng, name):
    """Lines of a detection: a map of items, or a list of such maps."""
    lines = [f"    {name}:"]
    if rng.randrange(4):
        return lines + items(rng, "        ", rng.randrange(1, 4))
    for _ in range(rng.randrange(2, 4)):
        inner = items(rng, "            ", rng.randrange(1, 3))
        lines.append("        - " + inner[0].lstrip())
        lines += [line[2:] for line in inner[1:]]
    return lines


def rule(rng, number):
    """A rule as they are published: about 1 to 2 KiB."""
    category, product = rng.choice(SOURCES)
    selections = ["selection_" + word for word in rng.sample(["img", "cli", "parent", "path", "user"], rng.randrange(1, 4))]
    filters = ["filter_main_" + word for word in rng.sample(["system", "update", "agent"], rng.randrange(3))]
    lines = [
        f"title: Rule {number} - {sentence(rng, 6)[:-1]}",
        f"id: {uuid.UUID(int=rng.getrandbits(128))}",
        f"status: {rng.choice(['stable', 'test', 'experimental'])}",
        "description: |",
        *(f"    {sentence(rng, 14)}" for _ in range(rng.randrange(1, 4))),
        "references:",
        *(f"    - https://example.org/{rng.choice(WORDS)}/{rng.randrange(10_000)}#part" for _ in range(rng.randrange(1, 4))),
        "author: " + rng.choice(["Jane Doe", "John Roe (example.org)", "'O''Brien, Pat'"]),
        f"date: 20{rng.randrange(18, 26)}-{rng.randrange(1, 13):02}-{rng.randrange(1, 29):02}",
        "tags:",
        *(f"    - attack.t{rng.randrange(1001, 1600)}" for _ in range(rng.randrange(1, 4))),
        "logsource:",
        f"    category: {category}",
        f"    product: {product}",
        "detection:",
    ]
    for name in selections + filters:
        lines += detection(rng, name)
    condition = rng.choice(["1 of selection_*", "all of selection_*", " and ".join(selections), " or ".join(selections)])
    if filters:
        condition = f"({condition})" if " or " in condition else condition
        condition += " and not " + rng.choice(["1 of filter_main_*", filters[0]])
    lines += [f"    condition: {condition}", "falsepositives:", "    - Unknown",
              f"level: {rng.choice(['low', 'medium', 'high', 'critical'])}"]
    return "\n".join(lines) + "\n"


def small_rule(rng, number):
    """A rule of at most 250 bytes, of which 4,000 fit into one file."""
    field, word = rng.choice([("Image", "endswith"), ("CommandLine", "contains"), ("ParentImage", "startswith")])
    return (f"title: Rule {number} on {rng.choice(PROGRAMS)}\nlogsource:\n  product: windows\ndetection:\n  a:\n"
            f"    {field}|{word}: {quoted(some_text(rng))}\n    EventID: [{rng.randrange(5000)}, {rng.randrange(5000)}]\n"
            f"  b:\n    User: {rng.choice(WORDS)}{rng.randrange(100)}\n  condition: {rng.choice(['a and not b', 'a or b', '1 of them'])}\n")


def joined(rules):
    """As many of the rules as one file takes."""
    taken, count = [], 0
    for text in rules[:MOST_DOCUMENTS]:
        count += len(text.encode()) + len(PARTING)
        if count > MOST_BYTES:
            break
        taken.append(text)
    return taken, PARTING.join(taken)


# ---- big documents

HEAD = "title: T\nlogsource:\n  category: c\ndetection:\n  a:\n    F: v\n  condition: a\nextra:"


def mixed(rng, room):
    lines, count = [], 0
    while count < room:
        lines.append(f"  - name: {sentence(rng, 3)}\n    path: {quoted(some_text(rng))}\n    \"n{rng.randrange(1000)}\": {rng.randrange(10**6)}\n"
                     f"    tags: [{', '.join(rng.sample(WORDS, 4))}]\n    more:\n      - {{a: {rng.randrange(100)}, b: 'x y'}}\n      - plain text\n"
                     f"        that goes on # with a comment\n    text: |\n      {sentence(rng, 8)}\n      {sentence(rng, 8)}")
        count += len(lines[-1]) + 1
    return "\n" + "\n".join(lines[:-1]) + "\n"


def keys(rng, room):
    return "\n" + "".join(f"  key{number:07}: v{number:06}\n" for number in range((room - 1) // 22))


def flow(rng, room):
    return " [" + ", ".join(f"{number:06}" for number in range(room // 8 - 1)) + "]\n"


def text(rng, room):
    lines, count = [], 0
    while count < room:
        lines.append("  " + sentence(rng, 12))
        count += len(lines[-1]) + 1
    return " |\n" + "\n".join(lines[:-1]) + "\n"


def flow_keys(rng, room):
    return " {" + "".join(f"{number:05x}: ," for number in range((room - 4) // 8)) + "}\n"


def lines_of(line):
    """A shape that is one line again and again."""
    return lambda rng, room: "\n" + (line + "\n") * ((room - 1) // (len(line) + 1))


def elements_of(element):
    """A flow sequence that is one element again and again."""
    return lambda rng, room: " [" + (element + ",") * ((room - 4) // (len(element) + 1)) + "]\n"


def empty_lines(rng, room):
    return " |\n  x\n" + "\n" * (room - 12) + "  y\n"


SHAPES = [("mixed", mixed), ("a map of keys", keys), ("a flow sequence", flow), ("a block scalar", text)]

# small nodes in large numbers, which take the most memory for each byte
DENSE_SHAPES = [
    ("a flow map of keys", flow_keys), ("lines of four dashes", lines_of("- - - - x")), ("lines of a dash", lines_of("-")),
    ("lines of a map of one key", lines_of("- a:")), ("lines of a short key", lambda rng, room: "\n" + "".join(f" {n:05x}:\n" for n in range((room - 1) // 8))),
    ("a flow sequence of letters", elements_of("a")), ("flow sequences of a letter", elements_of("[a]")),
    ("flow sequences of three letters", elements_of("[a,a,a]")), ("flow sequences in twelve", elements_of("[" * 12 + "a" + "]" * 12)),
    ("flow maps of one key", elements_of("{a: }")), ("flow maps in twelve", elements_of('{"":' * 12 + "}" * 12)),
    ("empty lines in a block scalar", empty_lines),
]

# ---- runs


class Run:
    """The least time of some runs in seconds, and the most memory in MiB."""

    def __init__(self, seconds, peak):
        self.seconds, self.peak = seconds, peak


def run_sigma(told, command, names, wanted):
    """Runs the program, which has to accept all of the wanted rules."""
    words = [told.program, *command, *names]
    best = Run(float("inf"), 0.0)
    for _ in range(told.repeat):
        ran = processes.run(words, told.folder)
        if ran.status != 0 or ran.out.count(10) != wanted:
            sys.exit(f"{' '.join(command)}: status {ran.status}, {ran.out.count(10)} of {wanted} lines\n{ran.err.decode(errors='replace')[:2000]}")
        best = Run(min(best.seconds, ran.seconds), max(best.peak, ran.peak))
    return best


def run_loader(told, loader, names):
    """Parses the files by a loader of PyYAML, in a process of its own that tells the time."""
    words = [sys.executable, os.path.abspath(__file__), "--load", loader, *names]
    best = Run(float("inf"), 0.0)
    for _ in range(told.repeat):
        ran = processes.run(words, told.folder)
        if ran.status != 0:
            sys.exit(f"{loader}: status {ran.status}\n{ran.err.decode(errors='replace')[:2000]}")
        best = Run(min(best.seconds, float(ran.out)), max(best.peak, ran.peak))
    return best


def load(loader, names):
    """What a process of `run_loader` does."""
    import yaml

    kind = getattr(yaml, loader)
    contents = []
    for name in names:
        with open(name, "rb") as file:
            contents.append(file.read())
    started = time.perf_counter()
    for bytes_of_file in contents:
        for _ in yaml.load_all(bytes_of_file, Loader=kind):
            pass
    print(time.perf_counter() - started)


def loaders():
    try:
        import yaml
    except ImportError:
        sys.exit("PyYAML isn't there")
    return [name for name in ("CSafeLoader", "SafeLoader") if hasattr(yaml, name)]


COMMANDS = [("convert", ["convert", "--backend", "sqlite"]), ("check", ["check"])]


def show_all(told, title, names, rules, size):
    """A table of both commands and the loaders on the same files."""
    print(f"\n{title}: {rules} rules, {len(names)} {'file' if len(names) == 1 else 'files'}, {size:,} bytes")
    rows = [(name, run_sigma(told, command, names, rules)) for name, command in COMMANDS]
    rows += [(name, run_loader(told, name, names)) for name in told.loaders]
    parsers = [row for row in rows if row[0] in told.loaders]
    print(f"  {'':12}{'seconds':>10}{'MiB/s':>10}{'peak MiB':>10}" + "".join(f"{'to ' + name:>16}" for name, _ in parsers))
    for name, run in rows:
        ratios = "".join(f"{run.seconds / other.seconds:>15.2f}x" for _, other in parsers)
        print(f"  {name:12}{run.seconds:>10.4f}{size / MIB / run.seconds:>10.2f}{run.peak:>10.1f}{ratios}")


def write(told, name, content):
    with open(os.path.join(told.folder, name), "w", encoding="utf-8", newline="") as file:
        file.write(content)
    size = os.path.getsize(os.path.join(told.folder, name))
    if size > MOST_BYTES:
        sys.exit(f"{name} has {size} bytes")
    return size


def show_growth(told, title, steps, command_rows):
    """How times and memory grow from step to step; a step is what it is called, a file, its size and its rules."""
    print(f"\n{title}")
    names = [name for name, _ in command_rows] + told.loaders
    print(f"  {'':>10}{'bytes':>12}" + "".join(f"{name + ' s':>14}{'grown':>8}{'MiB':>8}" for name in names))
    first, before = None, None
    for called, name, size, rules in steps:
        runs = [run_sigma(told, command, [name], rules) for _, command in command_rows]
        runs += [run_loader(told, loader, [name]) for loader in told.loaders]
        cells = ""
        for place, run in enumerate(runs):
            grown = f"{run.seconds / before[place].seconds:.2f}x" if before else ""
            cells += f"{run.seconds:>14.4f}{grown:>8}{run.peak:>8.1f}"
        print(f"  {called:>10}{size:>12,}{cells}")
        first, before = first or (size, runs), runs
        last = (size, runs)
    told_of = ", ".join(f"{name} {b.seconds / a.seconds:.1f}x" for name, a, b in zip(names, first[1], last[1]))
    print(f"  from first to last: bytes {last[0] / first[0]:.1f}x, {told_of}")
    ratios = [f"{names[0]} to {name} {last[1][0].seconds / last[1][names.index(name)].seconds:.2f}x" for name in told.loaders]
    print(f"  at the last: {', '.join(ratios)}" if ratios else "")


def show_peaks(told):
    """The peak memory of `check` by the shape of a document of 1 MiB."""
    print(f"\n`check` of one document\n  {'':34}{'bytes':>12}{'peak MiB':>10}{'for a byte':>12}")
    for shape, make in SHAPES + DENSE_SHAPES:
        name = f"{shape.replace(' ', '_')}.yml"
        size = write(told, name, HEAD + make(random.Random(told.seed), MOST_BYTES - len(HEAD) - 64))
        run = run_sigma(told, COMMANDS[1][1], [name], 1)
        print(f"  {shape:34}{size:>12,}{run.peak:>10.1f}{run.peak * MIB / size:>12.1f}")


def pipeline(mappings):
    """A pipeline of so many mappings, those of the names of rules in between others, a name in six with two targets."""
    own = TEXT_FIELDS + NUMBER_FIELDS
    others = [f"Unused{number:05}" for number in range(max(mappings - len(own), 0))]
    every = max(len(others) // len(own), 1)
    names = []
    for number, name in enumerate(own[:mappings]):
        names += others[number * every:(number + 1) * every] + [name]
    names += others[len(own) * every:]
    lines = ["name: mappings", "transformations:", "- type: field_name_mapping", "  mapping:"]
    for number, name in enumerate(names):
        target = f"event.{name.lower()}"
        lines.append(f"    {name}: " + (f"[{target}, {target}_too]" if number % 6 == 0 else target))
    return "\n".join(lines) + "\n"


def show_pipeline(told, names, rules, content):
    """The times of `convert` without the pipeline and under it, of one file each and of all in one."""
    size = write(told, "pipeline.yml", pipeline(told.mappings))
    write(told, "all.yml", content)
    command = COMMANDS[0][1]
    print(f"\n`convert` under a pipeline of {told.mappings} mappings ({size:,} bytes)\n  {'':24}{'rules':>8}{'without s':>12}{'under it s':>12}{'':>8}")
    for called, files, count in (("one file each", names, len(names)), ("all in one file", ["all.yml"], rules)):
        plain = run_sigma(told, command, files, count)
        piped = run_sigma(told, [*command, "--pipeline", "pipeline.yml"], files, count)
        print(f"  {called:24}{count:>8}{plain.seconds:>12.4f}{piped.seconds:>12.4f}{piped.seconds / plain.seconds:>7.2f}x")


def bench(told):
    rng = random.Random(told.seed)
    rules = [rule(rng, number) for number in range(told.rules)]
    names, size = [], 0
    for number, content in enumerate(rules):
        names.append(f"r{number}.yml")
        size += write(told, names[-1], content)
    if told.mappings:
        taken, content = joined(rules)
        show_pipeline(told, names, len(taken), content)
        return
    show_all(told, "One file each", names, len(rules), size)

    taken, content = joined(rules)
    show_all(told, "All in one file", ["all.yml"], len(taken), write(told, "all.yml", content))
    if len(taken) < len(rules):
        print(f"  ({len(rules) - len(taken)} rules more than one file takes)")

    small = [small_rule(rng, number) for number in range(4000)]
    steps = []
    for count in (500, 1000, 2000, 4000):
        taken, content = joined(small[:count])
        if len(taken) < count:
            sys.exit(f"{count} small rules are too large for one file")
        steps.append((f"{count} rules", f"small{count}.yml", write(told, f"small{count}.yml", content), count))
    show_growth(told, "Small rules in one file", steps, COMMANDS)

    for shape, make in SHAPES:
        steps = []
        for kibibytes in (64, 128, 256, 512, 1024):
            room = kibibytes * 1024 - len(HEAD) - 64
            name = f"{shape.replace(' ', '_')}{kibibytes}.yml"
            steps.append((f"{kibibytes} KiB", name, write(told, name, HEAD + make(random.Random(told.seed), room)), 1))
        show_growth(told, f"YAML alone, one document: {shape}", steps, COMMANDS[1:])
    show_peaks(told)


def main():
    if sys.argv[1:2] == ["--load"]:
        return load(sys.argv[2], sys.argv[3:])
    parser = argparse.ArgumentParser(description=__doc__, formatter_class=argparse.RawDescriptionHelpFormatter)
    parser.add_argument("program", help="the built program")
    parser.add_argument("--rules", type=int, default=500, help="how many realistic rules (500)")
    parser.add_argument("--seed", type=int, default=1, help="the seed of what is made (1)")
    parser.add_argument("--repeat", type=int, default=3, help="how many runs of each (3)")
    parser.add_argument("--no-plain", action="store_true", help="without PyYAML's plain loader, which takes most of the time")
    parser.add_argument("--keep", help="a folder for the files that are made, which then stay")
    parser.add_argument("--mappings", type=int, default=0, help="only `convert`, without a pipeline and under one of so many mappings")
    told = parser.parse_args()
    told.program = os.path.abspath(told.program)
    told.loaders = [name for name in loaders() if name == "CSafeLoader" or not told.no_plain]
    if not os.access(told.program, os.X_OK):
        parser.error(f"{told.program} can't be run")
    if told.rules < 1 or told.repeat < 1:
        parser.error("at least one rule and one run")
    with tempfile.TemporaryDirectory() as folder:
        told.folder = os.path.abspath(told.keep) if told.keep else folder
        os.makedirs(told.folder, exist_ok=True)
        bench(told)


if __name__ == "__main__":
    main()
