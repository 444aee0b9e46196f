"""The parts of tests/import.py: what the importer is run in, models of what it reads, and texts for it."""

import os
import sys

sys.path.append(os.path.join(os.path.dirname(os.path.realpath(__file__)), "..", "..", "tools"))
