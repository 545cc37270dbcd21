#!/usr/bin/env python3
"""Signs a dataset by a key that two parties share, and verifies it whatever its order and its labels.

    sign.py KEYFILE FILE             writes the signature, in hexadecimal digits
    sign.py KEYFILE FILE SIGNATURE   exits with 0 where it is that of the file, and with 1 where not
"""

import hmac
import sys
from pathlib import Path

sys.path.insert(0, str(Path(__file__).resolve().parents[2] / "python"))
import rdfc


def signature(key: bytes, text: bytes) -> str:
    """Of the canonical form. Raises `ValueError` where another implementation may give another form."""
    form = rdfc.canonize(text)
    if not form.settled:
        raise ValueError("a tie is unsettled: do not sign this dataset")
    return hmac.new(key, form.bytes, "sha256").hexdigest()


def main(words: list) -> int:
    if len(words) not in (2, 3):
        sys.exit(__doc__)
    try:
        made = signature(Path(words[0]).read_bytes(), Path(words[1]).read_bytes())
    except (rdfc.RdfcError, ValueError) as error:
        sys.exit(f"{words[1]}: {error}")
    if len(words) == 2:
        print(made)
        return 0
    return 0 if hmac.compare_digest(made, words[2]) else 1


if __name__ == "__main__":
    sys.exit(main(sys.argv[1:]))
