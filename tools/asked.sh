# Sourced by the tools in bash before they do anything: answers --help with the comment at the top of the tool, and ends it with a line on
# error output where its arguments are not those of its usage line (tools/asked.py). Then the working folder is the repository's root.
asked=$(python3 "$(dirname "${BASH_SOURCE[0]}")/asked.py" "$0" "$@") || exit
if [ -n "$asked" ]; then
    printf '%s\n' "$asked"
    exit
fi
tool=$(basename "$(dirname "$(realpath "$0")")")/$(basename "$0")
cd "$(dirname "${BASH_SOURCE[0]}")/.." || exit

# tell TEXT [STATUS]: ends the tool with a line on error output.
tell() {
    echo "$tool: $1" >&2
    exit "${2:-1}"
}

# need TOOL..: ends the tool where one of these is not on the path.
need() {
    local wanted
    for wanted; do
        command -v "$wanted" >/dev/null || tell "$wanted is not on the path, and is needed"
    done
}
