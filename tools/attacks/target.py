"""The program that is attacked, started before origins of this tool."""
import contextlib
import shutil
import tempfile

from live.expect import Unexpected
from live.proxy import Proxy, table_of
from attacks.findings import Found

# On a busy machine an answer may take a while: who has sent its end isn't to be given up meanwhile.
OPTIONS = ["--abandon-timeout", "60"]
# Nobody reaches /smug: what comes to an origin as a request for it was hidden in another message.
DENIED = ("/smug", ["*"], "deny")


class Target:
    """How the program is started, again and again; what it says at its end is a finding where it
    should say nothing."""

    def __init__(self, program, tally, records=False):
        self.program, self.tally, self.records = program, tally, records

    @contextlib.contextmanager
    def start(self, origin, lines=None, **table):
        """The running program before one origin, by these lines of a table or by one that sends all to it. Where its run is
        recorded, the replay of the record has to do what it did."""
        folder = tempfile.mkdtemp(prefix="attack-")
        text = table_of(lines or [DENIED, origin.address], **table)
        proxy = Proxy(self.program, folder, text, options=OPTIONS, records=self.records)
        try:
            yield proxy
            if self.records:
                proxy.wait_until_quiet()
            proxy.stop(0)
            if self.records:
                proxy.compare([origin])
        except Unexpected as fault:
            self.tally.find(Found("program", str(fault)), "the program")
        finally:
            if proxy.process.poll() is None:
                proxy.process.kill()
                proxy.process.communicate()
            shutil.rmtree(folder, ignore_errors=True)
