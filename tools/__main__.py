"""The way in of ./play."""
import os
import sys

if sys.version_info < (3, 8):
    sys.stderr.write("play: python3 is %d.%d here, and ./play needs 3.8 or later\n" % sys.version_info[:2])
    sys.exit(1)

sys.path[0] = os.path.dirname(os.path.dirname(os.path.realpath(__file__)))

from tools.main import main  # noqa: E402  The path has to be set first.

if __name__ == "__main__":
    sys.exit(main(sys.argv[1:]))
