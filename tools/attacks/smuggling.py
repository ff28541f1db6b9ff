"""Plays the cases of smuggling before an origin that keeps every byte, and reads strictly what came
there and what came back."""
from attacks.client import play
from attacks.findings import Found
from attacks.recorder import Recorder
from attacks.strict import Fault, hold_forwarded, read_answers
from attacks.threads import side_by_side


def hold_answers(case, got):
    """What came back is whole well-formed answers; these."""
    if not got.is_ended:
        raise Found("no end", f"the connection stays open behind the client's end and {got.data[-200:]!r}", case.data)
    try:
        answers, rest = read_answers(got.data)
    except Fault as fault:
        raise Found(f"answer, {fault.word}", f"{fault} in {got.data[:400]!r}", case.data) from None
    if rest and not got.was_reset:
        raise Found("answer, cut", f"{rest[:400]!r}", case.data)
    return answers


def hold(case, seen, got):
    """What came at the origin and went back to the client: the heads and the answers."""
    heads = []
    for it in seen:
        try:
            heads.append(hold_forwarded(it))
        except Fault as fault:
            raise Found(fault.word, f"{fault}; at the origin: {it[:400]!r}", case.data) from None
    answers = hold_answers(case, got)
    wanted = [it.target for it in heads]
    told = [it.head.value(b"x-target") for it in answers if it.head.value(b"x-target")]
    if not got.was_reset and told != wanted:
        raise Found("answers", f"the origin was asked {wanted!r} and the client was answered {told!r}", case.data)
    return heads, answers


def play_case(case, port, recorder):
    got = play(port, case.pieces(), case.is_late)
    return hold(case, recorder.take(), got)


def work(cases, start, tally):
    """Plays one case after the other before a proxy of its own; `start` makes one for an origin."""
    recorder = Recorder()
    with start(recorder) as proxy:
        for case in cases:
            if tally.is_full():
                break
            try:
                heads, answers = play_case(case, proxy.port, recorder)
            except Found as found:
                tally.find(found, f"smuggling, {case.name}")
                continue
            except OSError as fault:
                tally.find(Found("connection", repr(fault), case.data), f"smuggling, {case.name}")
                continue
            with tally.lock:
                tally.counts.update(heads=len(heads), answers=len(answers), cases=1)
    recorder.close()


def run(cases, start, tally, workers):
    """Some workers side by side, each with its share."""
    side_by_side([lambda i=i: work(cases[i::workers], start, tally) for i in range(workers)])
    if not tally.found and not tally.counts["heads"]:
        tally.find(Found("nothing", "no request came to the origin"), "smuggling")
