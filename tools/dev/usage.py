"""The arguments of tools in Python: print the help, and name wrong arguments."""
import sys
from pathlib import Path


def check(text, is_right):
    """Print the help where --help is the only argument; where the arguments aren't right, name them and exit with status 2."""
    given = sys.argv[1:]
    if given == ["--help"]:
        print(text.strip())
        sys.exit(0)
    if not is_right:
        tool = "/".join(Path(sys.argv[0]).resolve().parts[-2:])
        what = f"wrong arguments: {' '.join(given)}" if given else "no arguments are given"
        print(f"{tool}: {what}; {tool} --help lists them. Nothing was done.", file=sys.stderr)
        sys.exit(2)
