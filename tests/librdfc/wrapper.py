#!/usr/bin/env python3
"""Holds python/rdfc.py against the files of examples/ and against what the program writes.

    tests/librdfc/wrapper.py PROGRAM
"""

import doctest
import random
import subprocess
import sys
import tempfile
import threading
from pathlib import Path

ROOT = Path(__file__).resolve().parents[2]
EXAMPLES = ROOT / "examples"
sys.path.insert(0, str(ROOT / "python"))
import rdfc

FILES = 1_000
failures = []


def check(holds: bool, what: str) -> None:
    if not holds:
        failures.append(what)


def relabelled(lines: list, seed: int) -> str:
    """The lines in another order, with other labels, and a quad that tells the seed."""
    choice = random.Random(seed)
    names = {f"_:n{k}": f"_:x{choice.randrange(10**9)}.{k}" for k in range(12)}
    lines = [" ".join(names.get(word, word) for word in line.split(" ")) for line in lines]
    choice.shuffle(lines)
    return "\n".join([f'<e:s> <e:seed> "{seed}" .', *lines])


def example_forms() -> None:
    for path in sorted(EXAMPLES.glob("*.canon")):
        trig = path.with_suffix(".trig").exists()
        text = path.with_suffix(".trig" if trig else ".nq").read_bytes()
        form = rdfc.canonize(text, syntax="trig" if trig else "nquads")
        check(form.bytes == path.read_bytes(), f"canonize: {path.name}")
        digest = path.with_suffix(".hash")
        check(not digest.exists() or form.hash == digest.read_text().strip(), f"hash: {path.name}")


def program_output(program: str, words: list, name: str) -> bytes:
    return subprocess.run([program, *words, name], stdout=subprocess.PIPE, check=False).stdout


def files_beside_the_program(program: str) -> None:
    """1,000 files under other labels: the same bytes and identifiers as the program's."""
    graph = [f"_:n{k} <e:p{k % 3}> _:n{(k * 5 + 1) % 12} ." for k in range(12)] + ["_:n0 <e:q> _:n1 <e:g> ."]
    with tempfile.TemporaryDirectory() as folder:
        for seed in range(FILES):
            text = relabelled(graph, seed)
            path = Path(folder) / "file.nq"
            path.write_text(text)
            check(rdfc.canonize(text).bytes == program_output(program, ["canon"], str(path)), f"canonize: seed {seed}")
            if seed % 10 == 0:
                written = program_output(program, ["map"], str(path)).decode()
                pairs = dict(line.split(" ") for line in written.splitlines())
                check(rdfc.identifiers(text) == pairs, f"identifiers: seed {seed}")


def refusal(call, kind: type) -> object:
    try:
        call()
    except kind as error:
        return error
    check(False, f"no {kind.__name__}")
    return None


def exceptions() -> None:
    error = refusal(lambda: rdfc.canonize("<e:s> <e:p> <e:o> .\n<e:s> <e:p> ."), rdfc.Refused)
    check(error is not None and (error.line, error.text, error.cause) == (2, 1, "not an N-Quads line"), "Refused")
    error = refusal(lambda: rdfc.isomorphism("", b"\xff"), rdfc.Refused)
    check(error is not None and (error.line, error.text, error.cause) == (1, 2, "not UTF-8"), "Refused, the second")
    error = refusal(lambda: rdfc.lean("<e:s> <e:p> <e:o> <e:g> ."), rdfc.Refused)
    check(error is not None and error.line is None, "Refused, without a line")
    pair = "_:a <e:p> _:b .\n_:b <e:p> _:a .\n"
    refusal(lambda: rdfc.canonize(pair, limit=1), rdfc.WorkLimitPassed)
    refusal(lambda: rdfc.canonize(pair, hash="md5"), rdfc.WrongUse)
    refusal(lambda: rdfc.canonize(pair, base="e:b"), rdfc.WrongUse)
    refusal(lambda: rdfc.canonize(pair, syntax="trig", base="e:b\0"), rdfc.WrongUse)
    refusal(lambda: rdfc.pyld_normalize(pair, {"algorithm": "URDNA2015"}), rdfc.WrongUse)
    turned = "_:a <e:p> _:b _:c .\n_:b <e:p> _:c _:a .\n_:c <e:p> _:a _:b .\n"
    form = rdfc.canonize(turned)
    check(not form.settled and form.units == 105, "a form that is not settled")
    refusal(lambda: rdfc.pyld_normalize(turned), rdfc.RdfcError)
    refusal(lambda: rdfc.isomorphism(turned + '<e:x> <e:p> "1" .', turned + '<e:x> <e:p> "2" .'), rdfc.Undecided)


def results() -> None:
    check(rdfc.isomorphism("_:a <e:p> <e:o> .", "_:b <e:p> <e:o> .") == {"_:a": "_:b"}, "isomorphism")
    check(rdfc.isomorphism("_:a <e:p> <e:o> .", "") is None, "no isomorphism")
    check(rdfc.lean("<e:s> <e:p> <e:o> .\n<e:s> <e:p> _:b .") == b"<e:s> <e:p> <e:o> .\n", "lean")
    check(rdfc.pyld_normalize("<e:s> <e:p> <e:o> .", {"algorithm": "RDFC-1.0"}) == "<e:s> <e:p> <e:o> .\n", "pyld")
    check(len(rdfc.canonize("", hash="sha384").hash) == 96, "sha384")
    # More output than the first room, which is guessed by the length of the text: a prefix that grows.
    text = "@prefix p: <e:" + "x" * 500 + "> .\n" + "".join(f"p:s p:p p:o{k} .\n" for k in range(500))
    lines = rdfc.canonize(text, syntax="trig").bytes.split(b"\n")
    check(len(lines) == 501 and all(len(line) > 1500 for line in lines[:-1]), "an output that first did not fit")


def threads() -> None:
    text = (EXAMPLES / "credential.nq").read_bytes()
    form = (EXAMPLES / "credential.canon").read_bytes()

    def calls() -> None:
        for _ in range(200):
            check(rdfc.canonize(text).bytes == form, "four threads at once")

    running = [threading.Thread(target=calls) for _ in range(4)]
    for thread in running:
        thread.start()
    for thread in running:
        thread.join()


def main(program: str) -> int:
    check(doctest.testmod(rdfc).failed == 0, "the module's own examples")
    example_forms()
    results()
    exceptions()
    threads()
    files_beside_the_program(program)
    for what in failures[:20]:
        print(f"wrapper: {what}", file=sys.stderr)
    print(f"wrapper: {FILES} files beside the program, {len(failures)} failures")
    return 1 if failures else 0


if __name__ == "__main__":
    sys.exit(main(sys.argv[1]))
