"""python3 -m gammonfig_cpp: the command `read`."""
import sys

from .errors import ReadError

try:
    from .main import main
    status = main(sys.argv[1:])
except ReadError as wrong:
    print(f'gammonfig read: {wrong}', file=sys.stderr)
    status = 2
sys.exit(status)
