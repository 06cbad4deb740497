#!/usr/bin/env bash
# test-docs.sh: what README and docs/ show is what happens. Every request with its answer goes through the proved
# desk, every command of README is run; every number, word, command, file and version that they should name is named.
set -euo pipefail
cd "$(dirname "$0")/.."
unset MAKEFLAGS MFLAGS MAKELEVEL BOOK ROW FILE OUT
work=$(mktemp -d)
trap 'rm -rf "$work"' EXIT
fail() {
    echo "test-docs.sh: $*" >&2
    exit 1
}
has() { # has FILE PATTERN: a line of the file matches
    grep -qE -- "$2" "$1" || fail "$1 has no line like $2"
}

# ---- requests (four spaces, a word, a tab ..) and their answers on the next line
requests() { awk '/^    [a-z]+\t/ { print substr($0, 5) }' "$@"; }
answers() { awk 'wanted { print substr($0, 5) } { wanted = /^    [a-z]+\t/ }' "$@"; }
pages='docs/scope.md docs/forms.md docs/refusals.md'
for page in $pages; do
    requests "$page" > "$work/requests"
    answers "$page" > "$work/answers"
    [ -s "$work/requests" ] || fail "$page has no request"
    crates/desk/out/desk < "$work/requests" > "$work/answered"
    diff "$work/answers" "$work/answered" >&2 || fail "$page shows an answer that is another one"
done

# ---- README's commands, in a folder that has everything the repository has, so that what they make is not left in it.
# README's first block begins with "# NAME:" and is the file NAME.
shown() { # shown COMMAND: what stands below it in README
    SHOWN="    \$ $1" awk '
        $0 == ENVIRON["SHOWN"] { inside = 1; next }
        inside && (/^    \$ / || !/^    /) { exit }
        inside { print substr($0, 5) }' README.md
}
mkdir "$work/here"
ln -s "$PWD"/* "$work/here"
awk '/^```/ { fences++; next } fences == 1' README.md > "$work/block"
name=$(sed -n '1s/^# \([^:]*\):.*/\1/p' "$work/block")
[ -n "$name" ] || fail 'README has no file of formulas'
cp "$work/block" "$work/here/$name"
commands=0
while IFS= read -r command; do
    shown "$command" > "$work/shown"
    (cd "$work/here" && bash -c "$command") > "$work/printed" 2> "$work/said" < /dev/null ||
        { cat "$work/said" >&2; fail "README: $command"; }
    diff "$work/shown" "$work/printed" >&2 || fail "README: $command prints something else"
    commands=$((commands + 1))
done < <(sed -n 's/^    \$ //p' README.md)
[ "$commands" -ge 3 ] || fail 'README has too few commands'

# ---- what has to be named
for number in $(seq 14); do
    has docs/refusals.md "^## $number: "
    has docs/refusals.md "^\| $number \| "
    has docs/scope.md "^\| $number \| "
done
for word in $(sed -n 's/^ .*(bytes "\([a-z]*\)", [A-Z].*/\1/p' crates/desk_answer/specs/Answer.antt); do has README.md "^\| \`$word ROW"; done
make help > "$work/help"
for command in $(sed -n 's/^\.PHONY: help //p' Makefile); do
    has "$work/help" "^make $command\\b"
    has README.md "make $command"
done
has docs/forms.md '\(POW 2 1 \(POW 2 -1 0\)\)'
for word in door clearing lent gap carry stands box place; do has docs/glossary.md "^\| $word\\b"; done
for call in compare form remainder; do has include/panel.h "^panel_answer panel_$call\\("; done
[ "$(grep -c '^   Refuses: ' include/panel.h)" = 3 ] || fail 'include/panel.h does not say of each call what it refuses'
[ -z "$(awk 'length > 100' include/panel.h)" ] || fail 'include/panel.h has a line of more than 100 characters'
version=$(sed -n 's/^#define PANEL_VERSION "\(.*\)"$/\1/p' include/panel.h)
[ "$(sed -n 's/^## \([0-9.]*\)$/\1/p' CHANGES.md | head -n 1)" = "$version" ] || fail "CHANGES.md does not begin with version $version"
has tools/makebook/Cargo.toml "^version = \"$version\"$"

for page in docs/landings/*.md; do
    request=$(basename "$page" .md)
    has docs/requests.md "^## $request: "
    has CHANGES.md "^- Request $request: "
done

# ---- files that are named are there
for page in README.md CHANGES.md docs/*.md docs/landings/*.md; do
    for named in $(grep -oE '\b(docs|tools|include|c)/[A-Za-z_-]+\.(md|sh|py|h|c|cpp)\b' "$page" | sort -u); do
        [ -e "$named" ] || fail "$page names $named, which is not there"
    done
done
echo "docs: $(requests $pages | wc -l) requests are answered as shown, $commands commands of README print what it shows"
