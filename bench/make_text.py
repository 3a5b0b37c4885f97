#!/usr/bin/env python3
"""Prints an envelope, as a text of XML.

Of about so many bytes: `envelope`, `elements` and `text` are a Close whose element holds items, many small elements, or
one long text, all of which a reader of messages skips; `register` is a Register with an endpoint at its limits, and
other elements beside it.
Made to cost much: `namespace`, a Close that holds 16,000 elements in one namespace of 130,000 bytes, and `attributes`, one that
holds 500 elements with 31 attributes each in such a namespace."""
import sys

SOAP = "http://schemas.xmlsoap.org/soap/envelope/"
WSA = "http://www.w3.org/2005/08/addressing"
WSBA = "http://docs.oasis-open.org/ws-tx/wsba/2006/06"
WSCOOR = "http://docs.oasis-open.org/ws-tx/wscoor/2006/06"


def envelope(action, more, body):
    return (
        f'<S:Envelope xmlns:S="{SOAP}"><S:Header><To xmlns="{WSA}">http://node1/coordinator/1</To>'
        f'<Action xmlns="{WSA}" S:mustUnderstand="1">{action}</Action>{more}</S:Header><S:Body>{body}</S:Body></S:Envelope>'
    )


CLOSE = envelope(f"{WSBA}/Close", "", f'<Close xmlns="{WSBA}">%s</Close>')
PARAMETER = '<i:Key xmlns:i="urn:app:%d">' + "k" * 460 + "</i:Key>"
REGISTER = envelope(
    f"{WSCOOR}/Register",
    f'<MessageID xmlns="{WSA}">uuid:77</MessageID>',
    f'<c:Register xmlns:c="{WSCOOR}" xmlns:a="{WSA}">'
    f"<c:ProtocolIdentifier>{WSBA}/ParticipantCompletion</c:ProtocolIdentifier>"
    "<c:ParticipantProtocolService><a:Address>http://127.0.0.1:9000/p</a:Address><a:ReferenceParameters>"
    + "".join(PARAMETER % number for number in range(8))
    + "</a:ReferenceParameters></c:ParticipantProtocolService>%s</c:Register>",
)
SMALL = REGISTER.replace("k" * 460, "k" * 40)
ITEM = '<t:Item xmlns:t="urn:items" number="%d">booked &amp; paid</t:Item>'
PIECES = {
    "envelope": (CLOSE, ITEM),
    "elements": (CLOSE, '<a b="%d"/>'),
    "text": (CLOSE, "A long text, without any element in it, that goes on &lt;and on&gt;. "),
    "register": (REGISTER, ITEM),
}
LONG = "urn:" + "n" * 129_996
NAMES = "ABCDEFGHIJKLMNOPQRSTUVWXYZabcde"
DEAR = {
    "namespace": "<p:e/>" * 16_000,
    "attributes": ("<p:e" + "".join(f' p:{name}=""' for name in NAMES) + "/>") * 500,
}


def main():
    kind = sys.argv[1]
    if kind in DEAR:
        print(CLOSE % f'<p:all xmlns:p="{LONG}">{DEAR[kind]}</p:all>', end="")
        return
    size = int(sys.argv[2])
    whole, piece = PIECES[kind]
    if kind == "register" and size < len(whole):
        whole = SMALL
    body, length, number = [], len(whole) - 2, 0
    while True:
        number += 1
        one = piece % number if "%d" in piece else piece
        length += len(one)
        if length > size:
            break
        body.append(one)
    print(whole % "".join(body), end="")


main()
