#!/bin/sh
# Makes sigma-COMMIT.tar.gz for machines without the toolchain: the launcher with the proved
# program, the pages, the man page, completions, examples, the scripts for CI, and a file PROVED
# that says of which commit and by which toolchain it was proved. The launcher proves and builds
# the program first, where it isn't built. What was packed is unpacked elsewhere, and tried there.
#
#     scripts/package.sh [FOLDER]     writes the archive into FOLDER, or else here
set -eu
top=$(CDPATH='' cd -- "$(dirname -- "$0")/.." && pwd)
to=$(CDPATH='' cd -- "${1:-.}" && pwd)
scripts='diagnostics event_rows explain sarif split sql_tokens sqlite_table summary table_faults try_docs'

fail() {
    echo "package.sh: $1" >&2
    exit 1
}

# What the commit has at these paths, in the folder of the package.
take() {
    git -C "$top" archive HEAD "$@" | tar -x -C "$room/$name"
}

# The cases of `rows`, where there are some; those that are wrong on purpose are left out.
take_cases() {
    git -C "$top" cat-file -e HEAD:scripts/rows.py 2>/dev/null || return 0
    take scripts/rows.py crates/rows/data
    rm -f "$room/$name"/crates/rows/data/wrong*
    mv "$room/$name/crates/rows/data" "$room/$name/rows"
    rm -r "$room/$name/crates"
}

proved() {
    echo "commit $(git -C "$top" log -1 --format='%h of %cs')"
    grep '^proved with ' "$top/out/sigma.version"
    echo "SHA-256 of bin/sigma_app: $(sha256sum <"$top/out/sigma_app" | cut -d ' ' -f 1)"
    echo 'It runs on Linux on x86-64; the scripts need Python 3.8 or later.'
    echo 'scripts/try_docs.py bin/sigma_app tries what the pages and examples show.'
    if [ -d "$room/$name/rows" ]; then
        echo 'scripts/rows.py bin/sigma_app rows/*.rows runs the cases.'
    fi
}

pack() {
    take sigma README.md docs completions examples
    for it in $scripts; do
        take "scripts/$it.py"
    done
    take_cases
    mkdir "$room/$name/bin"
    cp "$top/out/sigma_app" "$room/$name/bin"
    proved >"$room/$name/PROVED"
    # the same bytes whenever the same commit is packed
    tar -C "$room" --sort=name --owner=0 --group=0 --numeric-owner \
        --mtime="@$(git -C "$top" log -1 --format=%ct)" -cf "$room/$name.tar" "$name"
    gzip -n "$room/$name.tar"
}

try() {
    mkdir "$room/elsewhere" &&
        tar -xzf "$room/$name.tar.gz" -C "$room/elsewhere" &&
        cd "$room/elsewhere/$name" &&
        ./sigma check -- examples/cmd.yml &&
        python3 -B scripts/try_docs.py bin/sigma_app &&
        { ! [ -d rows ] || python3 -B scripts/rows.py bin/sigma_app rows/*.rows; }
}

[ -z "$(git -C "$top" status --porcelain)" ] || fail "files were changed since the commit"
"$top/sigma" check -- "$top/examples/cmd.yml" >/dev/null || fail "the program isn't built"
name=sigma-$(git -C "$top" log -1 --format=%h)
room=$(mktemp -d)
trap 'rm -rf "$room"' EXIT
mkdir "$room/$name"
pack
(try) >&2 || fail "what was packed doesn't do elsewhere what the pages show"
mv "$room/$name.tar.gz" "$to"
echo "$to/$name.tar.gz"
