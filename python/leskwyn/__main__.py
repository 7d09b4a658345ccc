"""The command: python3 -m leskwyn. An old Python can read this file, and says a sentence."""
import sys

if sys.version_info < (3, 10):
    sys.stderr.write("leskwyn: Python 3.10 or newer is needed; this is Python %d.%d\n" % sys.version_info[:2])
    sys.exit(2)

from leskwyn.commands import run

if __name__ == "__main__":
    run()
