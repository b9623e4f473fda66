"""Joins SIP telephones to lines of a running exchange. Towards the exchange it is the endpoint of each line."""

from __future__ import annotations

from nemzhuul.sip.gateway import Gateway
from nemzhuul.sip.options import read_settings

USAGE = """usage: tools/sip [OPTION ..] (--users FILE | --no-passwords) ADDRESS ..
joins SIP telephones to the lines of tools/attach at each ADDRESS, unix:PATH or tcp:HOST:PORT. A telephone registers as
sip:DIGITS@HOST, and calls sip:DIGITS@HOST. It ends at an interrupt.
    --users FILE     has lines `DIGITS PASSWORD`, a telephone; `DIGITS sip:HOST:PORT`, a fixed telephone without a
                     password; `DIGITS* sip:HOST:PORT`, a trunk for all numbers that begin so; and `DIGITS PIN DIGITS`,
                     for rooms: who dials a number that begins so hears a tone, and then dials these keys
    --no-passwords   takes each telephone for the user that it says, on 127.0.0.1 only
    --listen HOST:PORT  listens there for SIP over UDP (127.0.0.1:5060); HOST is an IPv4 address of this machine
    --media FIRST-LAST  has speech on these UDP ports (20000-29999)
    --allow NETWORK  hears this network too, such as 192.168.1.0/24; it hears only this machine without it
    --buffer MS      begins to play a telephone's speech when so much of it has come, 20 to 500 ms (50)
    --lead MS        sends octets this time ahead of the exchange, 0 to 500 ms (20)
    --messages       prints each message of the exchange
    --seconds N      ends after this time
Signal USR1 prints what has happened so far. SIP and RTP are not encrypted: it is not for the open Internet."""


def main(*words: str) -> str:
    Gateway(read_settings(words)).run()
    return ""
