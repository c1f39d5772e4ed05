"""What these runs take from `vectors/`: the second checker, maker and monitor in Python, the machine in Python, and what job files say."""
import pathlib
import sys

ROOT = pathlib.Path(__file__).resolve().parent.parent.parent
sys.path.insert(0, str(ROOT / 'vectors'))

import certificates  # noqa: E402
import checker  # noqa: E402
import drawn_checks  # noqa: E402
import images  # noqa: E402
import jobs  # noqa: E402
import maker  # noqa: E402
import monitor  # noqa: E402
import monitors  # noqa: E402
import opening  # noqa: E402
import runs  # noqa: E402

__all__ = ['ROOT', 'certificates', 'checker', 'drawn_checks', 'images', 'jobs', 'maker', 'monitor', 'monitors', 'opening', 'runs']
