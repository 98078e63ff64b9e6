"""python3 -m havgrunel: the same command as ./order."""

import sys

from .command import main

sys.exit(main())
