"""Whether a call takes time in proportion to the size of a document: the rule for the tests of PostgreSQL, SQLite and
Python.

A call is timed over a document of 20,000 parts and over one of 80,000, by the time of the processor, so that other
work on the machine counts little. In proportion the second takes 4 times as long, with its square 16 times. Past 8
times it grows too fast. Of several runs the shortest counts, and there are more of them before a call is found to grow
too fast. The call is repeated until the small document takes at least FLOOR, so that what a clock doesn't resolve and
what a call costs for any document count little.

A call that takes less than QUICK for the large document isn't compared. The square of 80,000 steps, of a tenth of a
nanosecond each, is 640 ms, and that of a third of them 70 ms. Less says nothing: each byte costs more where they are
past the caches of the processor, which other work shares, so that calls in proportion of 2 to 40 ms were seen to take
13 times as long, and longer ones 7 times.

Where other tests run beside, VIZHONIKU_MOST_TIMES says how many times are allowed in place of 8.

Once calls have taken MOST_SPENT in all, the others aren't timed any more, which counts as a fault of each.
"""

import os
from typing import Callable, Optional

SMALL, LARGE = 20_000, 80_000
MOST = float(os.environ.get("VIZHONIKU_MOST_TIMES", "8"))  # times
FAR_TOO_MUCH = MOST + 4
FLOOR = 0.01  # seconds
QUICK = 0.06
MOST_CALLS = 200
RUNS, MORE_RUNS = 3, 12
LONG = 0.5  # seconds, from which on a run isn't repeated for a shorter one
MOST_SPENT = 100.0  # seconds, which is three times what calls in proportion take

# Memory that was given back is kept by the C library (glibc), so that a large document costs no more of the system.
ENVIRONMENT = {"MALLOC_MMAP_MAX_": "0", "MALLOC_TRIM_THRESHOLD_": "1000000000", "MALLOC_TOP_PAD_": "67108864"}


spent = 0.0  # seconds, by all calls so far


def too_fast(make_calls: Callable[[int, int], float]) -> Optional[str]:
    """What is told of a call that grows too fast, or None. make_calls(size, calls) makes so many calls over the
    document of that size, and returns the seconds of the processor that they took."""

    def time_of(size: int, calls: int = 1) -> float:
        """The seconds of one call, where so many are made."""
        global spent
        took = make_calls(size, calls)
        spent += took
        return took / calls

    if spent > MOST_SPENT:
        return "not timed, since others have taken %.0f s" % spent
    large = time_of(LARGE)
    if large < QUICK:
        return None
    small, calls = time_of(SMALL), 1
    while small * calls < FLOOR and calls < MOST_CALLS:
        calls = min(MOST_CALLS, calls * (1 + int(1.2 * FLOOR / max(small * calls, FLOOR / 50))))
        small = time_of(SMALL, calls)
    for _ in range(RUNS - 1):
        if small < LONG:
            small = min(small, time_of(SMALL, calls))
    for run in range(MORE_RUNS):
        if large <= MOST * small or large < QUICK:
            return None
        if run > 1 and large > FAR_TOO_MUCH * small:
            break
        if small < LONG:
            small = min(small, time_of(SMALL, calls))
            large = min(large, time_of(LARGE))
    return "%.1f ms for %d parts, %.1f ms for %d: %.1f times" % (
        1000 * small, SMALL, 1000 * large, LARGE, large / small)
