#!/usr/bin/env python3
"""Prints how many microseconds a call on a file takes, of python/rdfc.py or of pyld: rate.py rdfc|pyld FILE CALLS"""

import sys
import time
from pathlib import Path

sys.path.insert(0, str(Path(__file__).resolve().parents[2] / "python"))

text = Path(sys.argv[2]).read_text()
calls = int(sys.argv[3])
if sys.argv[1] == "rdfc":
    import rdfc

    def call() -> str:
        return rdfc.pyld_normalize(text)
else:
    from pyld import jsonld

    OPTIONS = {"algorithm": "URDNA2015", "inputFormat": "application/n-quads", "format": "application/n-quads"}

    def call() -> str:
        return jsonld.normalize(text, OPTIONS)

begin = time.perf_counter()
for _ in range(calls):
    call()
print(f"{(time.perf_counter() - begin) * 1e6 / calls:.2f}")
