"""`python3 -m ec_history` is `ec-history`."""

import sys

from .cli import main

sys.exit(main())
