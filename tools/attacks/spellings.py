"""How one thing may be spelled, right and wrong: lengths, codings, hosts, ends of lines, request
lines, chunks, and other lines."""

# (of a Content-Length; N is the length that is meant)
LENGTHS = [
    b"Content-Length: N", b"content-length: N", b"CONTENT-LENGTH: N", b"Content-Length:N", b"Content-Length:\tN",
    b"Content-Length:   N  ", b"Content-Length: +N", b"Content-Length: -N", b"Content-Length: 0N",
    b"Content-Length: 0000000000000000000000N", b"Content-Length: 0xN", b"Content-Length: N.0",
    b"Content-Length: Ne0", b"Content-Length: N;", b"Content-Length: N;x=y", b'Content-Length: "N"',
    b"Content-Length: N N", b"Content-Length: N,N", b"Content-Length: N, N", b"Content-Length: N,0",
    b"Content-Length: 0,N", b"Content-Length: N,", b"Content-Length: ,N", b"Content-Length: N\0",
    b"Content-Length: \0N", b"Content-Length: N\x0b", b"Content-Length: \x0cN", b"Content-Length: N\x80",
    b"Content-Length: \xef\xbc\x95", b"Content-Length: 18446744073709551621", b"Content-Length: 4294967301",
    b"Content-Length: 99999999999999999999", b"Content-Length: ", b"Content-Length:", b"Content-Length",
    b"Content-Length : N", b"Content-Length\t: N", b"Content-Length\0: N", b"Content-Length\xa0: N",
    b" Content-Length: N", b"\tContent-Length: N", b"Content_Length: N", b"Content Length: N",
    b"Content-Length;: N", b"Content-Length: N\r\nContent-Length: N", b"Content-Length: N\r\nContent-Length: 0",
    b"Content-Length: 0\r\nContent-Length: N", b"Content-Length:\r\n N", b"Content-Length: N\r\n 0",
    b"Content-Length: 0\r\n\tN", b"X: y\nContent-Length: N", b"X: y\rContent-Length: N",
    b"X: y\r\r\nContent-Length: N", b"X: y\0Content-Length: N", b"X\nContent-Length: N",
    b"X: y\n\rContent-Length: N", b"Content-Length:\nN",
]
# (of a Transfer-Encoding)
CODINGS = [
    b"Transfer-Encoding: chunked", b"transfer-encoding: CHUNKED", b"Transfer-Encoding:chunked",
    b"Transfer-Encoding:\tchunked", b"Transfer-Encoding: chunked  ", b"Transfer-Encoding:  \t chunked",
    b"Transfer-Encoding: chunked,", b"Transfer-Encoding: ,chunked", b"Transfer-Encoding: chunked, chunked",
    b"Transfer-Encoding: identity", b"Transfer-Encoding: identity, chunked",
    b"Transfer-Encoding: chunked, identity", b"Transfer-Encoding: gzip", b"Transfer-Encoding: gzip, chunked",
    b"Transfer-Encoding: chunked, gzip", b"Transfer-Encoding: chunked;q=1", b"Transfer-Encoding: chunked; x",
    b'Transfer-Encoding: "chunked"', b"Transfer-Encoding: 'chunked'", b"Transfer-Encoding: xchunked",
    b"Transfer-Encoding: chunkedx", b"Transfer-Encoding: x chunked", b"Transfer-Encoding: chunked x",
    b"Transfer-Encoding: chunked\0", b"Transfer-Encoding: \0chunked", b"Transfer-Encoding: chu\0nked",
    b"Transfer-Encoding: \x0bchunked", b"Transfer-Encoding: \x0cchunked", b"Transfer-Encoding: chunked\x0b",
    b"Transfer-Encoding: \x7fchunked", b"Transfer-Encoding: \xffchunked", b"Transfer-Encoding: chunked\xa0",
    b"Transfer-Encoding: chun\xc4\xb7ed", b"Transfer-Encoding: chunk", b"Transfer-Encoding: ",
    b"Transfer-Encoding:", b"Transfer-Encoding", b"Transfer-Encoding: cow", b"Transfer-Encoding : chunked",
    b"Transfer-Encoding\t: chunked", b"Transfer-Encoding\0: chunked", b"Transfer-Encoding\x0b: chunked",
    b"Transfer-Encoding\xa0: chunked", b" Transfer-Encoding: chunked", b"\tTransfer-Encoding: chunked",
    b"Transfer_Encoding: chunked", b"Transfer.Encoding: chunked", b"Transfer Encoding: chunked",
    b"Transfer-Encoding;: chunked", b"Transfer-Encoding: chunked\r\nTransfer-Encoding: identity",
    b"Transfer-Encoding: identity\r\nTransfer-Encoding: chunked",
    b"Transfer-Encoding: chunked\r\nTransfer-Encoding: cow",
    b"Transfer-Encoding: chunked\r\nTransfer-Encoding: chunked", b"Transfer-Encoding:\r\n chunked",
    b"Transfer-Encoding: \r\n\tchunked", b"Transfer-Encoding: chunked\r\n identity", b"Transfer-Encoding:\nchunked",
    b"Transfer-Encoding: chunked\rX: y", b"X: y\nTransfer-Encoding: chunked", b"X: y\rTransfer-Encoding: chunked",
    b"X: y\r\r\nTransfer-Encoding: chunked", b"X: y\n\rTransfer-Encoding: chunked",
    b"X: y\0Transfer-Encoding: chunked", b"X: y\r\n Transfer-Encoding: chunked", b"X:\nTransfer-Encoding: chunked",
    b"TE: chunked", b"Content-Encoding: chunked",
]
HOSTS = [
    b"h", b"H", b"h:80", b"h:", b"h:0", b"h:65535", b"h:65536", b"h:-1", b"h:8a", b"h:80:80", b"h.", b".h", b"h..i",
    b"h_i", b"", b" ", b"h i", b"h\ti", b"h,i", b"h, i", b"a@h", b"a:b@h", b"h@i", b"h/", b"h/x", b"h?x", b"h#x",
    b"h\\x", b"h%2ei", b"h%00", b"h\0", b"h\ni", b"h\ri", b"h\r\n i", b"h\x0b", b"h\x7f", b"h\xff", b"[::1]",
    b"[::1", b"::1", b"[::1]:80", b"[::1]x", b"[h]", b"127.0.0.1", b"'h'", b'"h"', b"h;i", b"*", b"x" * 254,
]
# (a line of Host at another place, or of another name; {} is a host)
HOST_LINES = [
    b"Host: {}", b"HOST: {}", b"Host:{}", b"Host : {}", b" Host: {}", b"Host:\r\n {}", b"Host: {}\r\nHost: i",
    b"Host: i\r\nHost: {}", b"Host: {}\r\nX-Forwarded-Host: i", b"Host: {}\nHost: i", b"Host: {}\rHost: i",
    b"X: y\nHost: {}", b"Host\0: {}", b"X: y",
]
# What may end a line, in place of CR LF.
LINE_ENDS = [
    b"\n", b"\r", b"\r\r\n", b"\n\r", b"\r\n ", b"\r\n\t", b"\n ", b"\n\t", b"\r ", b"\0\r\n", b"\r\0\n", b"\x0b",
    b"\x0c", b"\x85", b"\xe2\x80\xa8", b"\0", b"\x7f", b"\x1c", b" \r\n", b"\t\r\n", b"\x0b\r\n", b"\\r\\n",
    b"%0d%0a", b"\x8d\x8a",
]
# What may end a head, in place of CR LF CR LF.
HEAD_ENDS = [
    b"\n\n", b"\r\n\n", b"\n\r\n", b"\r\r", b"\r\r\n\r\n", b"\r\n\r\r\n", b"\r\n \r\n", b"\r\n\t\r\n",
    b"\r\n\0\r\n", b"\r\n\r\r\n\n", b"\n\r\r\n", b"\r\n\x0b\r\n", b"\r\n:\r\n\r\n", b"\r\n: x\r\n\r\n", b"\r\n\r",
    b"\r\n\r ", b"\r\n\r\0\n", b"\n \n", b"\r\nx\r\n\r\n", b"\r\n\r\n\r\n", b"\r\n\r\n\n", b"\n\n\n",
    b"\r\n\x00\r\n\r\n",
]
# What may stand before a start line.
STARTS = [
    b"\r\n", b"\n", b"\r\n\r\n\r\n", b"\r", b"\r\r\n", b" ", b"\t", b"\0", b"\x0b", b" \r\n", b"\xef\xbb\xbf",
    b"X: y\r\n", b"0\r\n\r\n", b"x\r\n",
]
REQUEST_LINES = [
    b"GET /a HTTP/1.1", b"get /a HTTP/1.1", b"GET  /a HTTP/1.1", b"GET /a  HTTP/1.1", b"GET\t/a\tHTTP/1.1",
    b"GET\t/a HTTP/1.1", b" GET /a HTTP/1.1", b"GET /a HTTP/1.1 ", b"GET /a HTTP/1.1\t", b"GET /a HTTP/1.1 x",
    b"GET /a", b"GET /a ", b"GET /a HTTP/1.0", b"GET /a HTTP/0.9", b"GET /a HTTP/1.2", b"GET /a HTTP/1.9",
    b"GET /a HTTP/1.10", b"GET /a HTTP/1.", b"GET /a HTTP/1", b"GET /a HTTP/01.1", b"GET /a HTTP/1.01",
    b"GET /a HTTP/1.1.1", b"GET /a HTTP/2.0", b"GET /a HTTP/3", b"GET /a http/1.1", b"GET /a HTTP /1.1",
    b"GET /a HTTP/1,1", b"GET /a HTTP/ 1.1", b"GET /a XHTTP/1.1", b"GET /a ICY/1.1", b"GET /a HTTP/-1.1",
    b"PRI * HTTP/2.0", b"CONNECT h:80 HTTP/1.1", b"CONNECT / HTTP/1.1", b"OPTIONS * HTTP/1.1",
    b"OPTIONS /a HTTP/1.1", b"TRACE /a HTTP/1.1", b"HEAD /a HTTP/1.1", b"POST /a HTTP/1.1", b"PUT /a HTTP/1.1",
    b"DELETE /a HTTP/1.1", b"BREW /a HTTP/1.1", b"G\0T /a HTTP/1.1", b"G:T /a HTTP/1.1", b"G/T /a HTTP/1.1",
    b"G\xffT /a HTTP/1.1", b"(GET) /a HTTP/1.1", b"GET a HTTP/1.1", b"GET ?a HTTP/1.1", b"GET * HTTP/1.1",
    b"GET h HTTP/1.1", b"GET h:80 HTTP/1.1", b"GET //a HTTP/1.1", b"GET //i/a HTTP/1.1", b"GET /a?b HTTP/1.1",
    b"GET /a#b HTTP/1.1", b"GET /a?b#c HTTP/1.1", b"GET /a\\b HTTP/1.1", b"GET /%00 HTTP/1.1",
    b"GET /a%0d%0ab HTTP/1.1", b"GET /% HTTP/1.1", b"GET /%g0 HTTP/1.1", b"GET /a\0 HTTP/1.1",
    b"GET /a\x0b HTTP/1.1", b"GET /a\x7f HTTP/1.1", b"GET /a\xff HTTP/1.1", b"GET /a\rb HTTP/1.1",
    b"GET /a\nb HTTP/1.1", b"GET /a\r\n HTTP/1.1", b"GET /./a HTTP/1.1", b"GET /../a HTTP/1.1",
    b"GET /%2e%2e/a HTTP/1.1", b"GET http://h/a HTTP/1.1", b"GET HTTP://h/a HTTP/1.1", b"GET http://h HTTP/1.1",
    b"GET http:///a HTTP/1.1", b"GET http://h?a HTTP/1.1", b"GET https://h/a HTTP/1.1", b"GET ftp://h/a HTTP/1.1",
    b"GET http:/a HTTP/1.1", b"GET http://i/a HTTP/1.1", b"GET /http://h/a HTTP/1.1",
    b"GET /" + b"x" * 8200 + b" HTTP/1.1", b"X" * 300 + b" /a HTTP/1.1", b"GET",
    b"GET /a\x20HTTP/1.1\x20GET\x20/smug",
]
# (a chunk of the size that is meant; N is 5 in hexadecimal)
SIZES = [
    b"5", b"05", b"0000005", b"00000000000005", b"0000000000000005", b"00000000000000000000005", b"+5", b"-5",
    b"0x5", b"5h", b"5 ", b" 5", b"5\t", b"\t5", b"5;", b"5;x", b"5;x=y", b'5;x="y"', b"5 ; x", b"5 x", b"5,",
    b"5.0", b'5;x="\r\n"', b"5;x\ry", b"5;x\ny", b"5;\0", b"5;\x7f", b"5;\xff", b"5\0", b"5\x0b", b"5\r", b"5;x\r",
    b"", b"g", b"100000005", b"FFFFFFFF5", b"10000000000000005", b"FFFFFFFFFFFFFFFF", b"7fffffffffffffff",
    b"80000000000000005", b"5;" + b"x" * 250, b"5;" + b"x" * 300, b"5;" + b"x" * 9000, b"5; GET /smug HTTP/1.1",
    b"5\r\n", b"\r\n5", b"5\xef\xbc\x95",
]
# What may end a size line, or the data of a chunk, in place of CR LF.
CHUNK_ENDS = [
    b"\n", b"\r", b"\r\r\n", b"\n\r", b"", b"x\r\n", b" \r\n", b"\0\r\n", b"\r\n\r\n", b"\r\0\n", b"\rX", b"XX",
]
LAST_CHUNKS = [
    b"0", b"00", b"0000000", b"0;x", b"0 ", b" 0", b"-0", b"+0", b"0x0", b"", b"0\0", b"0\r", b"0;x\ry", b"0;x\ny",
    b"0,", b"1", b"000000000000000000000",
]
TRAILERS = [
    b"X: y\r\n", b"Content-Length: 5\r\n", b"Transfer-Encoding: chunked\r\n", b"Host: i\r\n",
    b"GET /smug HTTP/1.1\r\n", b"X: y\n", b"X: y\rZ: z\r\n", b"X\r\n", b" X: y\r\n", b"X: y\r\n z\r\n",
    b"X: \0\r\n", b"X : y\r\n", b": y\r\n", b"\0\r\n", b"X: y\r\r\n", b"X: " + b"y" * 9000 + b"\r\n", b"\n", b"\r",
    b"X: y\n\n", b"\r\nX: y\r\n", b"Content-Length: 0\r\nTransfer-Encoding: x\r\n",
]
TRICKS = [
    b"Connection: close", b"Connection: keep-alive", b"Connection: Host", b"Connection: Content-Length",
    b"Connection: Transfer-Encoding", b"Connection: close, Content-Length",
    b"Connection: Content-Length, Transfer-Encoding", b"Connection: Via", b"Connection: Connection",
    b"Connection: X-A\r\nX-A: b", b"Connection: ,,,", b"Connection: \x0bclose",
    b"Connection: close\r\nConnection: keep-alive", b"Connection : close",
    b"Connection: X-Forwarded-For\r\nX-Forwarded-For: 1.2.3.4", b"Connection: Cookie, Authorization",
    b"Keep-Alive: timeout=5", b"Proxy-Connection: keep-alive", b"Proxy-Connection: close", b"Expect: 100-continue",
    b"Expect: 100-Continue", b"Expect: 200-ok", b"Expect: ", b"Expect: 100-continue, x",
    b"Expect: 100-continue\r\nExpect: 100-continue", b"Expect : 100-continue",
    b"Upgrade: h2c\r\nConnection: Upgrade, HTTP2-Settings\r\nHTTP2-Settings: AAMAAABkAAQAoAAA",
    b"Upgrade: websocket\r\nConnection: Upgrade\r\nSec-WebSocket-Version: 13\r\nSec-WebSocket-Key: AAAAAAAAAAAAAA==",
    b"Upgrade: HTTP/2.0", b"Upgrade: h2c", b"TE: trailers", b"TE: chunked",
    b"Connection: TE\r\nTE: trailers, chunked", b"Trailer: Content-Length", b"Trailer: Transfer-Encoding",
    b"Content_Length: 5", b"Transfer_Encoding: chunked", b"X_Forwarded_For: 1.2.3.4",
    b"X-HTTP-Method-Override: DELETE", b"X-HTTP-Method: PUT", b"X-Original-URL: /smug", b"X-Rewrite-URL: /smug",
    b"Max-Forwards: 0", b"Via: 1.1 edge", b"Via: 1.1 \x00", b"Content-Encoding: chunked",
    b"Content-Range: bytes 0-4/5", b"Range: bytes=0-1", b"If-None-Match: *", b"If-None-Match: \"\r\n x\"",
    b"If-Modified-Since: x\0y", b"Cache-Control: no-cache", b"Cache-Control: only-if-cached", b"Cookie: a=b\nX: y",
    b"X: y\x0bz", b"X: y\x01", b"X: \x7f", b"X: \x80\xff", b"X\x80: y", b"X y: z", b": y", b"X", b"X: ",
    b"X: a\r\n b", b"X: a\r\n\tb", b"X: a\n b", b"X(: y", b'X": y', b"X,Y: z", b"X/Y: z", b"X: GET /smug HTTP/1.1",
    b"X: " + b"y" * 9000, b"X: y\r\n" * 98 + b"X: y", b"X: y\r\n" * 99 + b"X: y", b"X: y\r\n" * 4000 + b"X: y",
    b"X" * 9000 + b": y",
]
