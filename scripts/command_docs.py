#!/usr/bin/env python3
"""Writes the man page docs/sigma.1 and the shells' completions from the program's own table of commands.

    command_docs.py            writes them
    command_docs.py --check    says which of them, or of the launcher's help, the table has left behind; then the exit status is 1

The table is crates/command_line/specs/Table.antt, which the program is proved to keep. What each command and option is for stands below.
"""
import os
import re
import sys

TOP = os.path.dirname(os.path.dirname(os.path.abspath(__file__)))
TABLE = "crates/command_line/specs/Table.antt"
BACKENDS = ["sqlite", "lucene"]

COMMANDS = {
    "check": ("which documents are rules or correlations", "Writes FILE:LINE:COLUMN: ok for each document that is a rule or a correlation.", ""),
    "convert": ("a query for each rule", "Writes a line for each rule that has a query, this query in the language of the backend.", ""),
    "run": ("the events that a rule matches", "Writes each event of the standard input that the file's one rule matches, as it was read.", " < EVENTS"),
    "query": ("the events that a query selects", "Writes each event of the standard input that the query in the file selects, as it was read.", " < EVENTS"),
    "correlate": ("the reports of correlations over events", "Writes a line of JSON for each report of the files' correlations over the events of the standard input.", " < EVENTS"),
    "generate": (
        "a rule compared with its queries over made events",
        "Makes a rule and K events of the number N, and writes a line: how many of the events the rule matches, and how many its queries select. No file is read.",
        "",
    ),
}
FILES = {"check": "RULE", "convert": "RULE", "run": "RULE", "query": "QUERY", "correlate": "RULE"}
OPTIONS = {
    "backend": ("B", "the query language: sqlite or lucene"),
    "schema": ("F", "the fields of events, as JSON; without it every name of a rule is a field of one value, of the kind that its tests ask for"),
    "pipeline": ("F", "processing pipelines, as YAML, which change each rule before its query is written or it is run"),
    "seed": ("N", "the number of which all is made, from 0 to 4294967295"),
    "events": ("K", "how many events are made, from 0 to 100000"),
}
NUMBERS = ["seed", "events"]
# The first words that are the launcher's: each with what the man page and the shells say of it.
LAUNCHER = [
    ("help, --help, -h", "Commands and options; --help may stand after a command's name, too."),
    ("--version", "Of which commit and by which toolchain the program was proved."),
    (
        "--explain [CODE]",
        "What a code of a refusal says, an example and what to do; alone, all codes.",
    ),
    (
        "--unproved COMMAND ..",
        "Where the program isn't built, rt try answers, within minutes: from a build that isn't"
        " proved, with at most a minute and 1 MiB of output.",
    ),
]
FIRST = {
    "help": "commands and options",
    "version": "what was built",
    "explain": "what a code of a refusal says",
    "unproved": "before a command: an answer within minutes, not proved",
}
EXIT = [
    ("0", "All was read, and nothing was refused."),
    ("1", "Something was refused; each such document, file or line has its own line on standard error."),
    ("2", "The words aren't accepted."),
    ("3", "A file or the events can't be read; nothing behind it is read."),
    ("4", "A stream can't be written."),
    ("5", "Memory is missing."),
    ("125", "The launcher can't build the program."),
    ("127", "The launcher finds no toolchain."),
    ("130", "The launcher is interrupted while it builds."),
]


def rows():
    """The commands in the table's order: the name, the options asked for, those that may stand, and whether there may be several files, if any."""
    with open(f"{TOP}/{TABLE}", encoding="utf-8") as it:
        text = it.read()
    form = re.compile(r'record \{ name = codes "(\w+)"; required = ([^;]*); optional = ([^;]*); files = (\w+) \}')
    options = lambda said: re.findall(r"(\w+) ∷", said)
    found = [(m[1], options(m[2]), options(m[3]), m[4] == "SomeNames") for m in form.finditer(text)]
    lacking = [name for name, *_ in found if name not in COMMANDS] + [o for _, a, b, _ in found for o in a + b if o not in OPTIONS]
    if not found or lacking:
        sys.exit(f"command_docs.py: nothing is said of {' '.join(lacking) or 'the commands of ' + TABLE}")
    return found


def words(row):
    """The usage of a command, behind the program's name."""
    name, required, optional, several = row
    said = [name] + [f"--{o} {OPTIONS[o][0]}" for o in required] + [f"[--{o} {OPTIONS[o][0]}]" for o in optional]
    files = f" {FILES[name]}" + (".." if several else "") if name in FILES else ""
    return " ".join(said) + files + COMMANDS[name][2]


def roff(text):
    return text.replace("\\", "\\e").replace("-", "\\-")


def man(table):
    lines = ['.TH SIGMA 1 "" "sigma" "User Commands"', ".SH NAME", "sigma \\- convert Sigma rules, and run rules and queries over events", ".SH SYNOPSIS"]
    for row in table:
        lines += [f".B sigma {roff(words(row))}", ".br"]
    lines += [
        ".B sigma \\-\\-unproved COMMAND ..",
        ".br",
        ".B sigma \\-\\-explain [CODE]",
        ".br",
        ".SH DESCRIPTION",
        "RULE is a file of Sigma rules and correlations in YAML, with one or more documents. EVENTS are JSON objects, one a line. An option stands before, between or behind the files,",
        "as \\-\\-schema F or \\-\\-schema=F; behind \\-\\- every word is a file.",
        ".SH COMMANDS",
    ]
    for row in table:
        lines += [".TP", f".B {roff(words(row))}", roff(COMMANDS[row[0]][1])]
    lines.append(".SH OPTIONS")
    for name in OPTIONS:
        lines += [".TP", f".B \\-\\-{name} {OPTIONS[name][0]}", roff(OPTIONS[name][1][:1].upper() + OPTIONS[name][1][1:]) + "."]
    for word, said in LAUNCHER:
        lines += [".TP", f".B {roff(word)}", roff(said)]
    lines.append(".SH DIAGNOSTICS")
    lines += ["Each document, file or line that is refused has one line on standard error, FILE:LINE:COLUMN: CODE NAME, or events:LINE: CODE NAME of an event, and perhaps a detail.", ".SH EXIT STATUS"]
    for code, said in EXIT:
        lines += [".TP", f".B {code}", roff(said)]
    lines += [
        ".SH EXAMPLES",
        ".nf",
        "sigma convert \\-\\-backend sqlite rules/x.yml",
        "sigma convert \\-\\-backend lucene \\-\\-pipeline ecs.yml rules/x.yml",
        "sigma run \\-\\-schema schema.json rules/x.yml < events.jsonl",
        "sigma correlate \\-\\-schema schema.json rules/x.yml rules/bursts.yml < events.jsonl",
        ".fi",
        ".SH SEE ALSO",
        "README.md, docs/FORMAT.md and docs/CODES.md of the program's repository.",
    ]
    return "\n".join(lines) + "\n"


def bash(table):
    cases = []
    for name, required, optional, _ in table:
        cases.append(f"        {name}) options='{' '.join('--' + o for o in required + optional)}' ;;")
    commands = " ".join(row[0] for row in table)
    first = " ".join([commands, *(f"--{it}" for it in FIRST)])
    return f"""# Completions of sigma for bash: source this file.
_sigma() {{
    local word=${{COMP_WORDS[COMP_CWORD]}} before=${{COMP_WORDS[COMP_CWORD - 1]}} options='' at=1
    if [ "$COMP_CWORD" -eq 1 ]; then
        mapfile -t COMPREPLY < <(compgen -W '{first}' -- "$word")
        return
    fi
    [ "${{COMP_WORDS[1]}}" = --unproved ] && at=2
    if [ "$COMP_CWORD" -eq "$at" ]; then
        mapfile -t COMPREPLY < <(compgen -W '{commands}' -- "$word")
        return
    fi
    case ${{COMP_WORDS[at]}} in
{chr(10).join(cases)}
    esac
    if [ "$before" = --backend ]; then
        mapfile -t COMPREPLY < <(compgen -W '{' '.join(BACKENDS)}' -- "$word")
    elif [[ $word == -* && -n $options ]]; then
        mapfile -t COMPREPLY < <(compgen -W "$options" -- "$word")
    else
        mapfile -t COMPREPLY < <(compgen -f -- "$word")
    fi
}}
complete -o filenames -F _sigma sigma
"""


def zsh(table):
    spec = {
        "backend": f"'--backend[{OPTIONS['backend'][1]}]:backend:({' '.join(BACKENDS)})'",
        "schema": "'--schema[the fields of events]:schema:_files'",
        "pipeline": "'--pipeline[processing pipelines]:pipelines:_files'",
    }
    spec.update({name: f"'--{name}[{OPTIONS[name][1]}]:number:'" for name in NUMBERS})
    cases = []
    for name, required, optional, several in table:
        files = ["'*:file:_files'" if several else "'1:file:_files'"] if name in FILES else []
        cases.append(f"        {name}) _arguments {' '.join([spec[o] for o in required + optional] + files)} ;;")
    commands = "\n".join(f"        '{row[0]}:{COMMANDS[row[0]][0]}'" for row in table)
    commands += "".join(f"\n        '--{name}:{said}'" for name, said in FIRST.items())
    return f"""#compdef sigma
# Completions of sigma for zsh: a file of a folder that fpath names.
_sigma() {{
    local -a commands=(
{commands}
    )
    if [[ $words[2] == --unproved ]] && (( CURRENT > 2 )); then
        shift words
        (( CURRENT-- ))
    fi
    if (( CURRENT == 2 )); then
        _describe command commands
        return
    fi
    local command=$words[2]
    shift words
    (( CURRENT-- ))
    case $command in
{chr(10).join(cases)}
    esac
}}
_sigma "$@"
"""


def fish(table):
    lines = ["# Completions of sigma for fish: a file of ~/.config/fish/completions."]
    for name, said in FIRST.items():
        lines.append(f"complete -c sigma -n __fish_use_subcommand -l {name} -d '{said}'")
    for name, required, optional, _ in table:
        lines.append(f"complete -c sigma -n __fish_use_subcommand -f -a {name} -d '{COMMANDS[name][0]}'")
        for option in required + optional:
            values = f"-x -a '{' '.join(BACKENDS)}'" if option == "backend" else "-x" if option in NUMBERS else "-r -F"
            lines.append(f"complete -c sigma -n '__fish_seen_subcommand_from {name}' -l {option} {values}")
    return "\n".join(lines) + "\n"


def main():
    table = rows()
    made = {"docs/sigma.1": man(table), "completions/sigma.bash": bash(table), "completions/_sigma": zsh(table), "completions/sigma.fish": fish(table)}
    if sys.argv[1:] == ["--check"]:
        stale = []
        for path, text in made.items():
            try:
                with open(f"{TOP}/{path}", encoding="utf-8") as it:
                    same = it.read() == text
            except OSError:
                same = False
            stale += [] if same else [path]
        with open(f"{TOP}/sigma", encoding="utf-8") as it:
            launcher = it.read()
        stale += [f"sigma ({row[0]})" for row in table if f"  {words(row)}" not in launcher]
        judged = f"  {' | '.join(row[0] for row in table)}) ;;"
        stale += [] if judged in launcher else ["sigma (is_command)"]
        for path in stale:
            print(f"{path} doesn't say what the table of commands says")
        return 1 if stale else 0
    if sys.argv[1:]:
        sys.exit("usage: command_docs.py [--check]")
    for path, text in made.items():
        os.makedirs(os.path.dirname(f"{TOP}/{path}"), exist_ok=True)
        with open(f"{TOP}/{path}", "w", encoding="utf-8") as it:
            it.write(text)
    return 0


if __name__ == "__main__":
    sys.exit(main())
