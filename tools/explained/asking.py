"""One request to the proxy, and what its answer says of itself."""
import email.utils
import http.client
import re
import urllib.parse

from explained.deciding import members, values_of

PATIENCE = 150
# The fields that the rules go by, beside the two that name them.
FIELDS = ["Cache-Control", "Expires", "Date", "Age", "Vary", "ETag", "Last-Modified", "Set-Cookie", "Content-Length"]


# A field of a request, and those that aren't for the caller to say.
FIELD = re.compile(r"([!#$%&'*+.^_`|~0-9A-Za-z-]+):[ \t]*([ \t!-~\x80-\xff]*)")
OWN = {"host", "connection", "content-length", "transfer-encoding"}


class NoAnswer(Exception):
    """The proxy gave none."""


class Answer:
    def __init__(self, status, line, fields):
        self.status, self.line, self.fields = status, line, fields

    def values(self, name):
        return [value for key, value in self.fields if key.lower() == name.lower()]

    def reason(self):
        """What Cache-Status or Refusal says; None where neither stands."""
        statuses, refusals = self.values("Cache-Status"), self.values("Refusal")
        return ", ".join(statuses) if statuses else refusals[-1] if refusals else None

    def told(self):
        """The reason first, then the status and the fields that rules go by."""
        first = [f"{name}: {value}" for name in ("Cache-Status", "Refusal") for value in self.values(name)]
        return [*first, self.line, *(f"{name}: {value}" for name in FIELDS for value in self.values(name))]


    def clocks(self, reason, now):
        """Of an answer that was stored when its lifetime was over: what its Date and Age say."""
        if not re.search(r";ttl=-[0-9]+;stored", reason):
            return
        for value in self.values("Date")[:1]:
            date = email.utils.parsedate_to_datetime(value).timestamp() if is_date(value) else None
            behind = None if date is None else round(now - date)
            way = "behind" if (behind or 0) > 0 else "ahead of"
            yield f"its Date is {abs(behind)} s {way} this machine's clock" if date else "its Date can't be read"
        for value in self.values("Age")[:1]:
            yield f"it came with an Age of {value} s"


    def varied(self, reason, asked):
        """Of an answer for which another variant is stored: what this request had of each field that Vary names."""
        if not re.search(r"fwd=vary-miss(;|$)", reason):
            return
        for name in members(self.values("Vary")):
            values = values_of(asked, name)
            yield f"Vary names {name}: this request had {', '.join(values) if values else 'none'}"


def is_date(text):
    try:
        return email.utils.parsedate_to_datetime(text) is not None
    except (TypeError, ValueError):
        return False


def fault_of(lines):
    """What is wrong with the lines of --header; None where nothing is."""
    for line in lines:
        found = FIELD.fullmatch(line)
        if not found:
            return f"--header has to be a name, a colon and a value, and not {line!r}"
        if found[1].lower() in OWN:
            return f"--header can't be {found[1]}: the URL says the host, and there is no content"
    return None


def fields_of(lines):
    return [(found[1], found[2].strip()) for found in map(FIELD.fullmatch, lines)]


def target_of(url):
    """The target as the log has it: the host in lower case, and no port 80. (A front takes https and its port away.)"""
    parts = urllib.parse.urlsplit(url)
    port = f":{parts.port}" if parts.port and parts.port != (443 if parts.scheme.lower() == "https" else 80) else ""
    return f"http://{parts.hostname}{port}{parts.path or '/'}" + (f"?{parts.query}" if parts.query else "")


def get(url, to=None, fields=()):
    """Asks for a URL by GET, at its own host or where `to` says."""
    parts = urllib.parse.urlsplit(url)
    if parts.scheme.lower() != "http":
        raise NoAnswer("only http:// is asked for: TLS is the front's; ask the proxy itself, with --to HOST:PORT")
    host, port = parts.hostname, parts.port or 80
    if to:
        host, _, number = to.rpartition(":")
        port = int(number)
    if not host:
        raise NoAnswer("there is no host in the URL, or no HOST:PORT behind --to")
    connection = http.client.HTTPConnection(host.strip("[]"), port, timeout=PATIENCE)
    target = (parts.path or "/") + (f"?{parts.query}" if parts.query else "")
    try:
        connection.putrequest("GET", target, skip_host=True, skip_accept_encoding=True)
        connection.putheader("Host", parts.netloc.rpartition("@")[2])
        connection.putheader("Connection", "close")
        for name, value in fields:
            connection.putheader(name, value.encode("latin-1"))
        connection.endheaders()
        answer = connection.getresponse()
        with_these = f" with {', '.join(name for name, _ in fields)}" if fields else ""
        return Answer(answer.status, f"{answer.status} to GET {url}{with_these}", answer.getheaders())
    except http.client.HTTPException as fault:
        raise NoAnswer(f"no answer that can be read: {fault!r}") from None
    finally:
        connection.close()
