"""The methods of steps: for each kind what stands after its word. An entry of a table is under its symbol; marked symbols are
those of `plain_prover`: ("mark", name)."""
from collections import namedtuple

Dp = namedtuple("Dp", "")
Graph = namedtuple("Graph", "items")
Subterm = namedtuple("Subterm", "places")
Poly = namedtuple("Poly", "word table")
Lpo = namedtuple("Lpo", "table")
Kbo = namedtuple("Kbo", "table")
Loop = namedtuple("Loop", "start path place")
Newman = namedtuple("Newman", "joins")
Parallel = namedtuple("Parallel", "items")
Strong = namedtuple("Strong", "items")
Label = namedtuple("Label", "ranks items")
Fork = namedtuple("Fork", "start left right test")
Confluence = namedtuple("Confluence", "")
