#!/usr/bin/env python3
"""make_message.py KIND BYTES: prints a message of HTTP/1.1 whose body has so many bytes.

counted, chunked: a request with a Content-Length, or in chunks of 1,000 bytes. reply-counted, reply-chunked: a reply likewise.
Three are made to cost much, take no BYTES and have 16,384: feeds is line feeds alone, fields a request whose head has 64 fields, and
both line feeds before such a head with hardly a byte in its fields."""
import sys

REQUEST = "POST /registration/1 HTTP/1.1\r\nHost: localhost:8080\r\nUser-Agent: Apache-CXF/4.0.3\r\nAccept: */*\r\n"
REPLY = "HTTP/1.1 200 OK\r\nServer: Apache-Coyote/1.1\r\nDate: Tue, 15 Nov 1994 08:12:31 GMT\r\n"
TYPE = 'Content-Type: text/xml; charset=utf-8\r\nSOAPAction: "urn:a"\r\n'


def chunks(body):
    pieces = [body[n:n + 1000] for n in range(0, len(body), 1000)]
    return "".join(f"{len(piece):x}\r\n{piece}\r\n" for piece in pieces) + "0\r\n\r\n"


def message(start, coding, size):
    body = ("<a b='c'>text</a>" * (size // 17 + 1))[:size]
    if coding == "chunked":
        return f"{start}{TYPE}Transfer-Encoding: chunked\r\n\r\n{chunks(body)}"
    return f"{start}{TYPE}Content-Length: {size}\r\n\r\n{body}"


def fields(size):
    head = "POST /x HTTP/1.1\r\nContent-Length: 0\r\n"
    left = size - len(head) - 2
    lines = [left // 63] * 62
    lines.append(left - sum(lines))
    return head + "".join("A: " + "b" * (line - 5) + "\r\n" for line in lines) + "\r\n"


def both(size):
    head = "POST /x HTTP/1.1\nContent-Length: 0\n" + "A:\n" * 63 + "\n"
    return "\n" * (size - len(head)) + head


kind = sys.argv[1]
if kind == "feeds":
    text = "\n" * 16384
elif kind == "fields":
    text = fields(16384)
elif kind == "both":
    text = both(16384)
else:
    start, coding = (REPLY, kind[6:]) if kind.startswith("reply-") else (REQUEST, kind)
    text = message(start, coding, int(sys.argv[2]))
sys.stdout.write(text)
