"""The program that a script of examples/, bench/ or .ci/ runs: the one that was made here, or another one that its words name; and how
a script ends."""
import os
import sys

TOP = os.path.dirname(os.path.dirname(os.path.abspath(__file__)))


class Fails(Exception):
    """A point doesn't hold, in words."""


class Closed(Exception):
    """A connection is over: with the code of its close, or 0 if none came."""


def program_at(path=None, crate="cf_server"):
    """The program in this file, or else the one that `rt run` makes of a crate. If it isn't there, the script ends with a sentence."""
    wanted = os.path.abspath(path) if path else f"{TOP}/crates/{crate}/out/{crate}"
    if not (os.path.isfile(wanted) and os.access(wanted, os.X_OK)):
        made = f"`cd crates/{crate} && rt run < stdin` makes {'one' if path else 'it'}"
        sys.exit(f"{os.path.basename(sys.argv[0])}: there is no program {wanted}: {made}, or name another one by --program FILE")
    return wanted


def words_and_program(crate="cf_server", most=None, usage="", words=None):
    """The script's words, at most so many and without `--program FILE`, and the program. Other words that begin with `-` have it end."""
    words, path = sys.argv[1:] if words is None else words, None
    if "--program" in words[:-1]:
        at = words.index("--program")
        path, words = words[at + 1], words[:at] + words[at + 2 :]
    if words in (["-h"], ["--help"]):
        print(usage.strip())
        sys.exit(0)
    odd = [word for word in words if word.startswith("-")] or ([] if most is None else words[most:])
    if odd:
        sys.exit(f"{os.path.basename(sys.argv[0])}: it takes no word {odd[0]}; --help tells what it takes")
    return words, program_at(path, crate)


def ended_by(main):
    """Runs a script, and ends with the status that it gives, or, if a point doesn't hold, with 1 and with what was wrong."""
    try:
        sys.exit(main())
    except (Fails, Closed) as fault:
        folder, name = os.path.split(os.path.abspath(sys.argv[0]))
        print(f"{os.path.basename(folder)}/{name}: {'closed with ' if isinstance(fault, Closed) else ''}{fault}")
        sys.exit(1)
