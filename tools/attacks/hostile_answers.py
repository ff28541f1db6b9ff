"""What hostile origins answer: for each a name, the bytes, and the contents that a client may be
given of them. No content means that the client has to be told 502; where there are contents, it may
be told so too: a proxy may refuse what it could read."""

SECOND = b"HTTP/1.1 200 OK\r\nX-Second: yes\r\nContent-Length: 6\r\n\r\nsecond"
GOOD = b"HTTP/1.1 200 OK\r\nContent-Length: 4\r\n\r\ngood"
CHUNKS = b"4\r\ngood\r\n0\r\n\r\n"


def ok(*lines, content=b"good", end=b"\r\n\r\n"):
    return b"\r\n".join([b"HTTP/1.1 200 OK", *lines]) + end + content


def coded(coding, content=CHUNKS):
    return ok(coding, content=content) + SECOND


def first_line(line):
    return line + b"\r\nContent-Length: 4\r\n\r\ngood" + SECOND


TE = b"Transfer-Encoding: chunked"
KEPT = b"Cache-Control: max-age=60"
LENGTHS = {
    "both": (ok(b"Content-Length: 14", TE, content=CHUNKS) + SECOND, [b"good"]),
    "both, coding first": (ok(TE, b"Content-Length: 4", content=CHUNKS) + SECOND, [b"good"]),
    "two lengths": (ok(b"Content-Length: 4", b"Content-Length: 80") + SECOND, []),
    "two lengths, the second less": (ok(b"Content-Length: 80", b"Content-Length: 4") + SECOND, []),
    "two lengths alike": (ok(b"Content-Length: 4", b"Content-Length: 4") + SECOND, [b"good"]),
    "a list of lengths": (ok(b"Content-Length: 4, 80") + SECOND, []),
    "a list of lengths alike": (ok(b"Content-Length: 4, 4") + SECOND, [b"good"]),
    "plus": (ok(b"Content-Length: +4") + SECOND, []),
    "minus": (ok(b"Content-Length: -4") + SECOND, []),
    "hexadecimal": (ok(b"Content-Length: 0x4") + SECOND, []),
    "empty length": (ok(b"Content-Length:") + SECOND, []),
    "length and a control byte": (ok(b"Content-Length: 4\x0b") + SECOND, []),
    "length and NUL": (ok(b"Content-Length: 4\0") + SECOND, []),
    "length beyond 64 bits": (ok(b"Content-Length: 18446744073709551620") + SECOND, []),
    "length beyond the bound": (ok(b"Content-Length: 99999999") + SECOND, []),
    "space before the colon": (ok(b"Content-Length : 4") + SECOND, []),
    "short": (ok(b"Content-Length: 900"), []),
    "no content of it": (ok(b"Content-Length: 4", content=b""), []),
    "none, to the close": (ok(content=b"good" + SECOND), [b"good" + SECOND]),
    "length 0": (ok(b"Content-Length: 0", content=b"") + SECOND, [b""]),
    "extra answer": (GOOD + SECOND, [b"good"]),
    "extra answers": (GOOD + SECOND * 20, [b"good"]),
    "extra bytes": (GOOD + b"x" * 100000, [b"good"]),
    "extra end of line": (GOOD + b"\r\n" + SECOND, [b"good"]),
}
CODINGS = {
    "chunks": (coded(TE), [b"good"]),
    "chunks and trailer": (coded(TE, b"4\r\ngood\r\n0\r\nX: y\r\nContent-Length: 80\r\n\r\n"), [b"good"]),
    "chunks and bad trailer": (coded(TE, b"4\r\ngood\r\n0\r\nX: y\rX-Second: yes\r\n\r\n"), [b"good"]),
    "cut in a size": (ok(TE, content=b"4\r\ngood\r\n4"), []),
    "cut in a chunk": (ok(TE, content=b"4\r\ngo"), []),
    "cut behind a chunk": (ok(TE, content=b"4\r\ngood\r\n"), []),
    "cut in the last chunk": (ok(TE, content=b"4\r\ngood\r\n0\r\n"), []),
    "chunk of LF": (coded(TE, b"4\ngood\n0\n\n"), []),
    "chunk 0x4": (coded(TE, b"0x4\r\ngood\r\n0\r\n\r\n"), []),
    "chunk +4": (coded(TE, b"+4\r\ngood\r\n0\r\n\r\n"), []),
    "chunk -4": (coded(TE, b"-4\r\ngood\r\n0\r\n\r\n"), []),
    "chunk 4 4": (coded(TE, b"4 4\r\ngood\r\n0\r\n\r\n"), []),
    "chunk beyond 64 bits": (coded(TE, b"10000000000000004\r\ngood\r\n0\r\n\r\n"), []),
    "chunk beyond the bound": (coded(TE, b"fffffff\r\ngood\r\n0\r\n\r\n"), []),
    "chunk that is longer": (coded(TE, b"4\r\ngoodgood\r\n0\r\n\r\n"), []),
    "chunk without end": (coded(TE, b"4\r\ngood0\r\n\r\n"), []),
    "no chunk": (coded(TE, b"good"), []),
    "coding in capitals": (coded(b"TRANSFER-ENCODING: CHUNKED"), [b"good"]),
    "two codings": (coded(b"Transfer-Encoding: gzip, chunked"), []),
    "chunked twice": (coded(b"Transfer-Encoding: chunked\r\nTransfer-Encoding: chunked"), []),
    "chunked, identity": (coded(b"Transfer-Encoding: chunked, identity"), []),
    "unknown coding": (coded(b"Transfer-Encoding: xchunked"), []),
    "coding and a control byte": (coded(b"Transfer-Encoding: \x0bchunked"), []),
    "coding, folded": (coded(b"Transfer-Encoding:\r\n chunked"), []),
    "coding, space before the colon": (coded(b"Transfer-Encoding : chunked"), []),
    "coding in 1.0": (coded(TE).replace(b"HTTP/1.1", b"HTTP/1.0", 1), [b"good", CHUNKS + SECOND]),
}
HEADS = {
    "bare CR": (ok(b"X: y\rX-Second: yes", b"Content-Length: 4") + SECOND, []),
    "bare CR at an end": (ok(b"X: y\r", b"Content-Length: 4") + SECOND, []),
    "CR alone for ends": (GOOD.replace(b"\r\n", b"\r") + SECOND, []),
    "LF alone for ends": (b"HTTP/1.1 200 OK\nX: y\nContent-Length: 4\n\ngood" + SECOND, [b"good"]),
    "LF in a value": (ok(b"X: y\nContent-Length: 4", b"Z: z") + SECOND, [b"good"]),
    "NUL": (ok(b"X: \0y", b"Content-Length: 4") + SECOND, []),
    "control byte": (ok(b"X: \x0by", b"Content-Length: 4") + SECOND, []),
    "DEL": (ok(b"X: \x7f", b"Content-Length: 4") + SECOND, []),
    "folded": (ok(b"X: y\r\n X-Second: yes", b"Content-Length: 4") + SECOND, []),
    "folded first line": (ok(b" X: y", b"Content-Length: 4") + SECOND, []),
    "no colon": (ok(b"X", b"Content-Length: 4") + SECOND, []),
    "no name": (ok(b": y", b"Content-Length: 4") + SECOND, []),
    "space in a name": (ok(b"X y: z", b"Content-Length: 4") + SECOND, []),
    "NUL in a name": (ok(b"X\0: z", b"Content-Length: 4") + SECOND, []),
    "bytes above 7E": (ok(b"X: \x80\xff", b"Content-Length: 4") + SECOND, [b"good"]),
    "100 lines": (ok(*[b"X: y"] * 99, b"Content-Length: 4") + SECOND, [b"good"]),
    "2,000 lines": (ok(*[b"X: y"] * 2000, b"Content-Length: 4") + SECOND, []),
    "a line of 40,000": (ok(b"X: " + b"y" * 40000, b"Content-Length: 4") + SECOND, []),
    "head without end": (b"HTTP/1.1 200 OK\r\nX: y", []),
    "nothing": (b"", []),
    "empty lines": (b"\r\n\r\n\r\n", []),
    "empty line in front": (b"\r\n" + GOOD + SECOND, [b"good"]),
    "names its Cache-Control": (ok(b"Connection: Cache-Control", KEPT, b"Content-Length: 4") + SECOND, [b"good"]),
    "names its Set-Cookie": (
        ok(b"Connection: Set-Cookie", b"Set-Cookie: a=b", KEPT, b"Content-Length: 4") + SECOND,
        [b"good"],
    ),
    "names its Content-Length": (ok(b"Connection: Content-Length", b"Content-Length: 4") + SECOND, [b"good"]),
    "upgrade": (ok(b"Connection: Upgrade", b"Upgrade: h2c", b"Content-Length: 4") + SECOND, [b"good"]),
}
STATUSES = {
    "101": (b"HTTP/1.1 101 Switching Protocols\r\nUpgrade: h2c\r\nConnection: Upgrade\r\n\r\n" + SECOND, []),
    "100 and no more": (b"HTTP/1.1 100 Continue\r\n\r\n", []),
    "103, then the answer": (b"HTTP/1.1 103 Early Hints\r\nLink: </x>\r\n\r\n" * 3 + GOOD + SECOND, [b"good"]),
    "1,000 interim answers": (b"HTTP/1.1 103 Early Hints\r\nLink: </x>\r\n\r\n" * 1000 + GOOD + SECOND, [b"good"]),
    "100 with a content": (b"HTTP/1.1 100 Continue\r\nContent-Length: 4\r\n\r\nevil" + GOOD, []),
    "204 with a content": (b"HTTP/1.1 204 No Content\r\nContent-Length: 6\r\n\r\nsecond" + SECOND, [b""]),
    "304 with a content": (b"HTTP/1.1 304 Not Modified\r\nContent-Length: 6\r\n\r\nsecond" + SECOND, [b""]),
    "205 with a content": (b"HTTP/1.1 205 Reset Content\r\nContent-Length: 4\r\n\r\ngood" + SECOND, [b"good", b""]),
    "0.9": (b"<html>good</html>\r\n", []),
    "0.9 with an empty line": (b"<html>good</html>\r\n\r\n" + SECOND, []),
    "HTTP/0.9": (first_line(b"HTTP/0.9 200 OK"), []),
    "HTTP/1.0": (first_line(b"HTTP/1.0 200 OK"), [b"good"]),
    "HTTP/1.2": (first_line(b"HTTP/1.2 200 OK"), [b"good"]),
    "HTTP/2.0": (first_line(b"HTTP/2.0 200 OK"), []),
    "HTTP/2": (first_line(b"HTTP/2 200 OK"), []),
    "http/1.1": (first_line(b"http/1.1 200 OK"), []),
    "ICY": (first_line(b"ICY 200 OK"), []),
    "two blanks": (first_line(b"HTTP/1.1  200 OK"), []),
    "tab": (first_line(b"HTTP/1.1\t200 OK"), []),
    "no reason": (first_line(b"HTTP/1.1 200"), [b"good"]),
    "control byte in the reason": (first_line(b"HTTP/1.1 200 \x0b"), []),
    "CR in the reason": (first_line(b"HTTP/1.1 200 OK\rX-Second: yes"), []),
    "000": (first_line(b"HTTP/1.1 000 Zero"), []),
    "099": (first_line(b"HTTP/1.1 099 Low"), []),
    "600": (first_line(b"HTTP/1.1 600 High"), []),
    "999": (first_line(b"HTTP/1.1 999 High"), []),
    "1000": (first_line(b"HTTP/1.1 1000 High"), []),
    "20": (first_line(b"HTTP/1.1 20 Low"), []),
    "2xx": (first_line(b"HTTP/1.1 2xx OK"), []),
    "+200": (first_line(b"HTTP/1.1 +200 OK"), []),
    "a request": (b"GET /smug HTTP/1.1\r\nHost: h\r\n\r\n", []),
    "random bytes": (bytes(range(256)) * 40, []),
}
ANSWERS = LENGTHS | CODINGS | HEADS | STATUSES
# Whose fields the client doesn't get, since Connection names them; and whose answer isn't stored.
NAMED = {"names its Cache-Control": b"cache-control", "names its Set-Cookie": b"set-cookie"}
