"""A script that is called wrongly says how it is called, at once, on standard error, and ends with status 2."""
import sys
from pathlib import Path


def words(shown=''):
    """The arguments, which must be as many as are shown, each in capitals."""
    given = sys.argv[1:]
    if len(given) != len(shown.split()):
        print(f'usage: tests/{Path(sys.argv[0]).name} {shown}'.rstrip(), file=sys.stderr)
        sys.exit(2)
    return given
