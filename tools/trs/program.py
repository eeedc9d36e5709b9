"""The program that the tools run: --program, the environment variable TRSPROVE, or `./trsprove` of this repository."""
import os
import subprocess
import tempfile

from . import TOP

# Statuses with an answer on the standard output.
ANSWERED = (0, 1, 3, 7)


class NoAnswer(Exception):
    """The program could not be run, or ended with a status that has no answer."""


def program_path(option=None):
    return option or os.environ.get("TRSPROVE") or os.path.join(TOP, "trsprove")


def printed(program, words, seconds=None):
    """The standard output and the status of a run; None where the time is up."""
    try:
        done = subprocess.run([program, *words], stdin=subprocess.DEVNULL, capture_output=True, timeout=seconds)
    except subprocess.TimeoutExpired:
        return None
    except OSError as error:
        raise NoAnswer(f"{program} can't be run: {error}") from None
    if done.returncode not in ANSWERED:
        said = done.stderr.decode("utf-8", "replace").strip()
        raise NoAnswer(f"{program} ended with status {done.returncode}" + (f": {said}" if said else ""))
    return done.stdout, done.returncode


def certified(program, problem, certificate, seconds=None):
    """The line of the certifier for a certificate that is given as bytes."""
    with tempfile.NamedTemporaryFile(prefix="certificate-") as file:
        file.write(certificate)
        file.flush()
        done = printed(program, ["certify", problem, file.name], seconds)
    return None if done is None else done[0].decode("utf-8", "replace").strip()
