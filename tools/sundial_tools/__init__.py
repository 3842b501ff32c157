"""Tools beside `sundial`: files of other programs to its texts, and its output to tables and pages.

Nothing here is proved. tools/README.md says what each tool does.
"""

import sys

__version__ = "1.0.0"

if sys.version_info < (3, 11):
    sys.exit("the tools of sundial need Python 3.11 or later")
