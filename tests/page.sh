#!/bin/sh
# Tries what pages say: tests/page.sh PAGE .. . In a page a file stands after `<!-- file NAME -->`,
# and commands with what they print after `<!-- run -->`, each indented by four spaces up to the
# next line that is not. The commands are run in a folder of their own, where the repository's
# folders are at hand, and the output compared. It is outside the repository, in which `rt ci`
# refuses links.
set -eu
cd "$(dirname "$0")/.."
root=$PWD
made=$(mktemp -d)
trap 'rm -rf "$made"' EXIT

# prepare PAGE: the folder $made/page, with the page's files, its commands in `run`, and the folders
# that they name.
prepare() {
    rm -rf "$made/page"
    mkdir -p "$made/page/target"
    for folder in boards crates host target/tests; do
        ln -s "$root/$folder" "$made/page/$folder"
    done
    awk -v to="$made/page/" '
        /^<!-- run -->$/ { name = "run"; next }
        /^<!-- file [^ ]* -->$/ { name = $3; next }
        /^[^ ]/ { name = "" }
        name != "" && (/^    / || name != "run") { sub(/^    /, ""); print > (to name) }
    ' "$1"
}

# perform: the commands of `run`, each with what it prints.
perform() {
    while IFS= read -r line; do
        case $line in
            '$ '*) printf '%s\n' "$line"; sh -c "${line#??}" < /dev/null 2>&1 || echo "status $?" ;;
        esac
    done < run
}

for page in "$@"; do
    prepare "$page"
    (cd "$made/page" && perform > printed)
    diff "$made/page/run" "$made/page/printed" || {
        echo "page: $page differs (< page, > printed)"
        exit 1
    }
    echo "page: $page, $(grep -c '^\$ ' "$made/page/run") commands, equal"
done
