"""Calls side by side, of which none fails unseen."""
import threading


def side_by_side(calls):
    """Runs each call in a thread of its own until all have ended; what one raises, it raises."""
    faults = []

    def run(call):
        try:
            call()
        except BaseException as fault:
            faults.append(fault)

    threads = [threading.Thread(target=run, args=[it]) for it in calls]
    for it in threads:
        it.start()
    for it in threads:
        it.join()
    if faults:
        raise faults[0]
