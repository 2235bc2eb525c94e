"""`python -m unison.cluster`: see docs/cluster.md."""

import sys

from .words import main

sys.exit(main(sys.argv[1:]))
