"""z3, where it is there. Debian's package belongs to Debian's own Python; it works for another one of the same version too."""
import sys

MISSING = "z3 is not installed (Debian's package python3-z3), so no orders and no ranks of rules are searched for"
DEBIAN = "/usr/lib/python3/dist-packages"


def found_z3():
    try:
        import z3
        return z3
    except ImportError:
        pass
    sys.path.append(DEBIAN)
    try:
        import z3
        return z3
    except ImportError:
        sys.path.remove(DEBIAN)
        return None


Z3 = found_z3()


def model_of(solver, clock, most_seconds):
    """A model of what the solver holds, or None where there is none, or none within the time."""
    seconds = min(most_seconds, clock.left())
    if seconds <= 0:
        return None
    solver.set("timeout", max(1, int(seconds * 1000)))
    return solver.model() if solver.check() == Z3.sat else None
