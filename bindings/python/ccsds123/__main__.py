"""The command `python3 -m ccsds123`."""

import sys

from .command import main

sys.exit(main())
