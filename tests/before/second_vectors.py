"""Makes the cases of the second program anew and compares them with tests/vectors: counts, sizes, demands, every byte."""

import subprocess
import sys
from pathlib import Path

SECOND = Path(__file__).resolve().parent.parent / "second.py"

sys.exit(subprocess.run([sys.executable, "-B", str(SECOND), "compare"]).returncode)
