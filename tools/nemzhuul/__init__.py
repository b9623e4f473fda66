"""The tools of the exchange. A Python that is too old ends here, before it reads a module that it does not understand."""

import sys

__version__ = "1.0"

if sys.version_info < (3, 9):
    sys.exit("the tools need Python 3.9 or later, and this is Python %d.%d" % sys.version_info[:2])
