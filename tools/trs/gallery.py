"""The files of examples/, each by its name, in whichever folder there it lies."""
import os

from . import TOP


def gallery():
    """The path of each file, by its name."""
    return {name: os.path.join(at, name) for at, _, names in os.walk(os.path.join(TOP, "examples")) for name in names}
