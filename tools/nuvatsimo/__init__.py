"""Tools that show what the lockreplay program does: counts, stories, pictures and more.

The program plays scripts and audits journals. The tools ask it for what holds, and read
journals for what was said.
"""

import sys

__version__ = "0.2.0"

if sys.version_info < (3, 9):
    sys.stderr.write("lockreplay: this command needs Python 3.9 or later, as python3\n")
    sys.exit(2)
