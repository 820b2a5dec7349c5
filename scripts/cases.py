"""How cases are tried and counted, for the scripts beside this one: each case ends, whatever it meets, and is counted.

A case fails where it raises anything, where it takes LONGEST seconds, and where the processes that it started and waited for
took more than PROCESSOR seconds of a processor: a busy machine makes no case fail, and a program that hangs ends none but its
own. Behind MOST cases that failed after SLOW seconds the rest isn't tried, and counts as one more that failed.
"""
import os
import pathlib
import resource
import signal
import sys
import time

# How long a case may take, and what a program may be waited for, by the clock; and what a case may take of a processor.
LONGEST, TIME, PROCESSOR = 600, 240, 60
# How many cases may fail that took long, and what is long.
MOST, SLOW = 3, 50

# The runs of tests/sessions at a limit of the language, by their sessions and lines: what is read in their C would pass it, so they have
# none, and this is said.
NO_C = {
    "limits_all_at_once": [3], "limits_of_groups": [2, 4, 6, 10], "limits_of_program2": [10, 11, 13, 17], "limits_of_tasks": [5],
    "limits_of_values_and_sections_of_program2": [9], "limits_of_waits": [6], "wide_declarations": [2],
}
LIMIT = (
    r"omptask: the C isn't read back(: it is refused by 422, see omptask explain 422"
    r"| at byte [0-9]+: a program has at most 20000 statements)\n"
)


class Wrong(Exception):
    """What a case found wrong."""


def wants(what, found, wanted):
    if found != wanted:
        raise Wrong(f"{what}: {found!r}, and not {wanted!r}")


def each(what, rows):
    """Rows that cases are made of, as a list: there must be some."""
    rows = list(rows)
    if not rows:
        sys.exit(f"there are no {what}")
    return rows


def processor_time():
    """The seconds of a processor that processes have taken that were started here and have ended."""
    used = resource.getrusage(resource.RUSAGE_CHILDREN)
    return used.ru_utime + used.ru_stime


def too_long(*_):
    """Ends what was started here, so that nobody waits for it any longer."""
    for number in pathlib.Path(f"/proc/self/task/{os.getpid()}/children").read_text().split():
        os.kill(int(number), signal.SIGKILL)
    raise Wrong(f"it took {LONGEST} s")


class Cases:
    """Counts cases, by whether they passed."""

    def __init__(self):
        self.passed = self.failed = self.slow = 0
        signal.signal(signal.SIGALRM, too_long)
        sys.stdout.reconfigure(errors="backslashreplace")

    def tries(self, name, run, most=PROCESSOR):
        """Tries a case: `run` raises what is wrong. False says that no other is to be tried."""
        begun, used, found = time.monotonic(), processor_time(), None
        signal.alarm(LONGEST)
        try:
            run()
        except Wrong as wrong:
            found = str(wrong)
        except Exception as error:
            found = f"{type(error).__name__}: {error}"
        finally:
            signal.alarm(0)
        used = processor_time() - used
        if not found and used > most:
            found = f"it took {used:.0f} s of a processor"
        if not found:
            self.passed += 1
            return True
        self.fails(name, found)
        self.slow += time.monotonic() - begun > SLOW
        if self.slow >= MOST:
            self.fails("the rest", f"it isn't tried, as {MOST} that failed took long")
        return self.slow < MOST

    def fails(self, name, why):
        self.failed += 1
        print(f"FAILED {name}: {why[:2000]}", flush=True)

    def end(self):
        """Prints how many passed and failed, and ends with the status that says so."""
        print(f"{self.passed} passed, {self.failed} failed")
        sys.exit(1 if self.failed or not self.passed else 0)
