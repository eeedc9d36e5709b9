"""What the tools share: texts with their places, a plain certifier that says why, words of the field for what it finds, and
searches for proofs. It stands over tests/plain_prover, whose terms, unifiers and peaks it uses.

Names are texts of bytes: a byte that is no UTF-8 is kept as it is (`surrogateescape`), so two names are equal exactly where
their bytes are.
"""
import os
import sys

sys.dont_write_bytecode = True

TOP = os.path.dirname(os.path.dirname(os.path.dirname(os.path.abspath(__file__))))
TESTS = os.path.join(TOP, "tests")

if TESTS not in sys.path:
    sys.path.append(TESTS)

# Terms of texts have depth at most 1,040, and functions on terms call themselves for each part.
sys.setrecursionlimit(20_000)
