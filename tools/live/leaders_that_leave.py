"""Scenarios of a client that resets its connection while others wait for the answer to its request, over a line of version 4: the first
of them goes to the origin, and the others wait for that one (docs/CROWDS.md, "wait"; docs/LIMITS.md, "Requests that wait")."""
import threading
import time

from live.expect import expect, expect_answer
from live.line_words import by_words, expect_asked
from live.origin import held_back, whole
from live.scenario import KEPT, LATEST, scenario
from live.waiting import COLLAPSED, READ, STORED, asking

# Seconds that are more than a scenario takes, so that nobody has waited long enough.
LONG = {"wait-timeout": 60}


def behind_resets(stage, words, version, count, resets):
    """So many clients ask for one page, and so many of them reset, each once its request is the origin's latest. The others, and the
    origin, where the answer waits for the event."""
    go = threading.Event()
    client, origin = by_words(stage, words, {"/a": held_back(go, whole(200, KEPT, content=b"hello"))}, version=version)
    client.leave()
    clients = asking(stage.proxies[-1], count, "/a")
    origin.wait_for(1)
    for i in range(resets):
        clients[i].leave(reset=True)
        origin.wait_for(i + 2)
        time.sleep(READ)
    return clients[resets:], origin, go


def expect_one_answer_for_all(clients, go):
    """The first of them goes to the origin, and the others have its answer."""
    go.set()
    for it, member in zip(clients, [STORED] + [COLLAPSED] * (len(clients) - 1)):
        expect_answer(it.response(), 200, member, b"hello")


@scenario
def a_reset_brings_one_request_whatever_the_crowd(stage):
    """The client whose request is at the origin resets, and 50 wait for its answer: the origin sees two requests in all, and the link of
    the first is closed. In version 3 each of the 50 goes to the origin by itself."""
    clients, origin, go = behind_resets(stage, LONG, 4, 51, 1)
    expect_one_answer_for_all(clients, go)
    expect_asked(origin, 2)
    expect("the link's end at the origin", True, origin.fetches[0].is_over.wait(LATEST))
    clients, origin, go = behind_resets(stage, {}, 3, 51, 1)
    origin.wait_for(51)
    go.set()
    for it in clients:
        expect_answer(it.response(), 200, STORED, b"hello")
    expect_asked(origin, 51)


@scenario
def a_chain_of_resets_brings_one_request_each(stage):
    """Five that lead reset, one behind the other, and twenty wait: the origin sees six requests in all. So it is over a line that lets
    requests wait for what is stale, too."""
    for words in ({}, {"wait": "missing-or-stale"}):
        clients, origin, go = behind_resets(stage, {**LONG, **words}, 4, 25, 5)
        expect_one_answer_for_all(clients, go)
        expect_asked(origin, 6)


@scenario
def a_crowd_of_more_than_512_goes_by_itself(stage):
    """512 wait for the client that resets, and the first of them leads on: two requests at the origin. Where one more waits, each of the
    513 goes there by itself."""
    clients, origin, go = behind_resets(stage, LONG, 4, 513, 1)
    expect_one_answer_for_all(clients, go)
    expect_asked(origin, 2)
    clients, origin, go = behind_resets(stage, LONG, 4, 514, 1)
    origin.wait_for(514)
    go.set()
    for it in clients:
        expect_answer(it.response(), 200, STORED, b"hello")
    expect_asked(origin, 514)
