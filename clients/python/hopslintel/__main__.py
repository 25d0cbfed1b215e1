# SPDX-License-Identifier: Apache-2.0
"""`python3 -m hopslintel`, or `python3` and the path of this folder."""
import os
import sys

if __package__:
    from .command_line import main
else:
    sys.path[0] = os.path.dirname(os.path.dirname(os.path.abspath(__file__)))
    from hopslintel.command_line import main

if __name__ == "__main__":
    sys.exit(main())
