"""What all tools share: how they are asked, and that they tell what went wrong in one line of words.

The text at the top of a tool, the docstring of one in Python and the comment of one in bash, is its help. A line of it says what the tool
takes, and no other place does:

    Usage: tools/NAME [--fix] [--times N] COMMIT [LOG] [WORD..]

`[--fix]` may be there, and so may `[--times N]` with a word of its own; a word that is not in brackets must be there; `..` takes all words
that follow, whatever they look like. A tool in Python calls `words` before it does anything; one in bash sources tools/asked.sh, which runs
this file.
"""
import atexit, os, re, subprocess, sys, traceback

ROOT = os.path.dirname(os.path.dirname(os.path.abspath(__file__)))


def help_of(path):
    """The text at the top of a tool."""
    text = open(path).read()
    if m := re.match(r'#!.*python3\n"""(.*?)"""', text, re.S):
        return m[1].strip()
    return "\n".join(line[2:] for line in re.match(r"(?:#!.*\n)?((?:#.*\n)*)", text)[1].split("\n")).strip()


def understood(usage, words):
    """The words of a call, by what the usage line calls them; `--help` where it is among them; or a text that says what is wrong."""
    options = dict(re.findall(r"\[(--[\w-]+)(?: (\w+))?\]", usage))
    places = re.findall(r"\[?[A-Z]+(?:\.\.)?\]?", re.sub(r"\[--[^\]]*\]", "", usage))
    found, words = {}, list(words)
    while words:
        word = words.pop(0)
        if word in ("--help", "-h"):
            return {"--help": True}
        if word in options and not options[word]:
            found[word] = True
        elif word in options:
            if not words:
                return f"{word} takes a word, {options[word]}"
            found[word] = words.pop(0)
        elif word.startswith("-"):
            return f"not understood: {word}"
        elif not places:
            return f"a word too many: {word}"
        else:
            place = places.pop(0).strip("[]")
            found[place.strip(".")], words = ([word] + words, []) if place.endswith("..") else (word, words)
    missing = [place for place in places if not place.startswith("[")]
    return f"{missing[0]} is missing" if missing else found


def asked(path, words):
    """What a tool was asked, by the names of its usage line. Help is given here, and words that are not understood are told here."""
    text = help_of(path)
    usage = re.search(r"^Usage: \S+(.*)", text, re.M)
    if not usage:
        tell("it is a part of the tools, and not run by itself", 2)
    found = understood(usage[1], words)
    if isinstance(found, str):
        tell(f"{found} (--help says more)", 2)
    if "--help" in found:
        print(text)
        sys.exit()
    return found


# ---- for the tools in Python

name = os.path.relpath(os.path.abspath(sys.argv[0]), ROOT)


def tell(text, status=1):
    """Ends the tool with a line on error output."""
    print(f"{name}: {text}", file=sys.stderr)
    sys.exit(status)


def words():
    """The words that the tool was called with, by their names in its usage line: True for an option, a list for what has `..`."""
    if sys.stdout is None:
        tell("standard output is closed")
    sys.excepthook = told
    atexit.register(written)
    return asked(sys.argv[0], sys.argv[1:])


def reason(kind, error, trace):
    if issubclass(kind, KeyboardInterrupt):
        return "interrupted"
    if issubclass(kind, FileNotFoundError):
        return f"{error.filename} is not there"
    if issubclass(kind, OSError):
        return f"{error.filename or 'writing standard output'}: {error.strerror}"
    if issubclass(kind, subprocess.CalledProcessError):
        return f"{' '.join(error.cmd)}: exit status {error.returncode}"
    at = traceback.extract_tb(trace)[-1]
    return f"an error of its own at {os.path.relpath(at.filename, ROOT)}:{at.lineno}: {kind.__name__}: {error}"


def told(kind, error, trace):
    """What would be a traceback, in one line, behind what was written until then. An error of the tool itself names its place."""
    try:
        sys.stdout.flush()
    except OSError:
        pass
    print(f"{name}: {reason(kind, error, trace)}", file=sys.stderr, flush=True)
    os._exit(130 if issubclass(kind, KeyboardInterrupt) else 1)


def written():
    """Hands on what was printed, at the end: where that fails it is told."""
    try:
        sys.stdout.flush()
    except OSError as error:
        told(type(error), error, None)


def crates():
    """The crates that crates.txt lists, in its order."""
    lines = [line.split("#")[0].split(":")[0].split() for line in open(os.path.join(ROOT, "crates.txt"))]
    return [words[0] for words in lines if words]


def files(*tops):
    """The files below these folders, in order, without what rt, cargo and python made there."""
    found = []
    for top in tops:
        for at, folders, names in os.walk(top):
            folders[:] = [name for name in folders if name not in ("out", "target", "__pycache__")]
            found += [os.path.join(at, name) for name in names]
    return sorted(found)


def program(crate):
    """Where the program of a crate stands: where rt builds it, or in the folder that BRAVOLITH_BIN_DIR names."""
    folder = os.environ.get("BRAVOLITH_BIN_DIR")
    return os.path.abspath(os.path.join(folder, crate)) if folder else os.path.join(ROOT, "crates", crate, "out", crate)


# ---- for the tools in bash: asked.py TOOL WORD.. prints the help where it is asked for, and nothing where the words are understood

if __name__ == "__main__":
    tool = sys.argv[1] if len(sys.argv) > 1 else __file__
    name = os.path.relpath(os.path.abspath(tool), ROOT)
    asked(tool, sys.argv[2:])
