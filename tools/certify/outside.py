"""What this tool takes from `vectors/`: the second checker in Python, what words mean, and the bytes of certificates."""
import pathlib
import sys

ROOT = pathlib.Path(__file__).resolve().parent.parent.parent
sys.path.insert(0, str(ROOT / 'vectors'))

import certificates  # noqa: E402
import checker  # noqa: E402
import model  # noqa: E402
import table  # noqa: E402

__all__ = ['ROOT', 'certificates', 'checker', 'model', 'table']
