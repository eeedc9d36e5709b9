"""A ladder of budgets: runs of the program with ever larger budgets, as many side by side as there are processors."""
import os
import subprocess
import tempfile
import time

from .program import ANSWERED, NoAnswer

BUDGETS = (1_000, 10_000, 100_000, 1_000_000)
MOST_WORKERS = 16
PAUSE = 0.01


class Rung:
    """A run of the program with one budget; what it prints goes to a file."""

    def __init__(self, words):
        self.file = tempfile.TemporaryFile()
        self.process = subprocess.Popen(words, stdin=subprocess.DEVNULL, stdout=self.file, stderr=subprocess.DEVNULL)

    def has_ended(self):
        return self.process.poll() is not None

    def text(self):
        if self.process.returncode not in ANSWERED:
            raise NoAnswer(f"the program ended with status {self.process.returncode}")
        self.file.seek(0)
        return self.file.read()

    def end(self):
        if not self.has_ended():
            self.process.kill()
        self.process.wait()
        self.file.close()


def is_decided(text):
    return text.startswith((b"YES\n", b"NO\n"))


def is_final(text):
    """Whether no larger budget changes the answer: it is decided, the problem is refused, or no search was spent."""
    return not text.startswith(b"MAYBE\n") or b" spent)" not in text


def climbed(program, question, problem, seconds, processors=None):
    """The first answer that is final, or the one with the largest budget when the time is up; None where there is none."""
    processors = processors or len(os.sched_getaffinity(0))
    at_once = min(processors, len(BUDGETS))
    workers = min(MOST_WORKERS, max(1, processors // at_once))
    until = time.monotonic() + seconds
    waiting, running, best = list(BUDGETS), [], None
    try:
        while (waiting or running) and time.monotonic() < until:
            while waiting and len(running) < at_once:
                budget = waiting.pop(0)
                words = [program, question, problem, f"--budget={budget}", f"--workers={workers}"]
                running.append((budget, Rung(words)))
            ended = [it for it in running if it[1].has_ended()]
            for it in ended:
                running.remove(it)
                text = it[1].text()
                it[1].end()
                if is_final(text):
                    return text
                best = max(best or (0, b""), (it[0], text))
            if not ended:
                time.sleep(PAUSE)
    except OSError as error:
        raise NoAnswer(f"{program} can't be run: {error}") from None
    finally:
        for _, rung in running:
            rung.end()
    return best and best[1]
