"""The list of scenarios, and what several of them use. Each is a function of a `Stage`; its name says what it shows."""
import time

SCENARIOS = {}
# What lets an answer be kept for ten minutes.
KEPT = "Cache-Control: max-age=600"
# Seconds of a time-out, in whole ones as its option has it, and the longest until it is told.
SHORT, LATEST = 2, 10
# What an answer that waits for nobody takes at most. (A turn that waited would take a second.)
AT_ONCE = 0.9


def scenario(function):
    SCENARIOS[function.__name__] = function
    return function


def timed(client, *words, **more):
    """An answer, and the seconds that it took."""
    began = time.monotonic()
    answer = client.ask(*words, **more)
    return answer, time.monotonic() - began
