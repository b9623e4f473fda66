"""Scenarios for sipp (Debian: `sip-tester`): what a telephone sends to tools/sip and expects from it, and the called telephone.

usage: python3 .ci/tests/sipp_scenarios.py FOLDER    writes them as files of sipp: NAME.xml, and NAME_called.xml

101 calls with its password. `[service]` is the number that it calls. A called telephone is a fixed one of the users file.
"""

from __future__ import annotations

import sys
from collections.abc import Iterable, Sequence
from dataclasses import dataclass
from pathlib import Path

PASSWORD = "one-secret"
USERS = f"101 {PASSWORD}\n102 two-secret\n103 three-secret\n"
T301_FRAMES = 4_000
SETTINGS = f"""exchange 1 1 1 1
number 1 line 0
number 2 line 0
number 9 line 0
number 30 room 0
tone ringback {"5A" * 8}
timer T301 {T301_FRAMES}
"""

URI = "sip:[service]@[remote_ip]:[remote_port]"
REGISTRAR = "sip:[remote_ip]"
ROUTES = ' rrs="true"'  # of a message whose routes and contact later requests have
BACK = ("[last_Via:]", "[last_From:]", "[last_To:]", "[last_Call-ID:]", "[last_CSeq:]")
CALLER = "<sip:101@[remote_ip]>;tag=c[pid]-[call_number]"
ANOTHER = "<sip:102@[remote_ip]>;tag=c[pid]-[call_number]"
OWN_TAG = ";tag=s[pid]-[call_number]"  # of the called telephone


@dataclass(frozen=True)
class Scenario:
    name: str
    caller: str
    called: str = ""
    number: str = "102"  # if no telephone is called

    def digest_uri(self, number: str, address: str) -> str:
        """The URI of a digest, without its scheme, which sipp does not take from the request. REGISTER has no user in it."""
        return address if "REGISTER" in self.caller else f"{number}@{address}"

    @property
    def files(self) -> dict[str, str]:
        """The texts of sipp's files, by name."""
        found = {f"{self.name}.xml": scenario(self.name, self.caller)}
        if self.called:
            found[f"{self.name}_called.xml"] = scenario(self.name, self.called)
        return found


def scenario(name: str, steps: str) -> str:
    reference = '<Reference variables="found"/>\n' if "assign_to" in steps else ""
    return f'<?xml version="1.0" encoding="UTF-8"?>\n<scenario name="{name}">\n{steps}{reference}</scenario>\n'


# ---- steps


def description(kinds: str = "8 101", direction: str = "sendrecv", host: str = "[local_ip]") -> tuple[str, ...]:
    return ("v=0", "o=- 1 1 IN IP4 [local_ip]", "s=-", f"c=IN IP4 {host}", "t=0 0", f"m=audio 30000 RTP/AVP {kinds}", f"a={direction}")


def sent(first: str, fields: Iterable[str], body: Sequence[str], is_repeated: bool) -> str:
    typed = ["Content-Type: application/sdp"] if body[:1] == ("v=0",) else []
    text = "\n".join([first, *fields, *typed, "Content-Length: [len]" if body else "Content-Length: 0", "", *body])
    return f"<send{' retrans=' + chr(34) + '500' + chr(34) if is_repeated else ''}><![CDATA[\n\n{text}\n\n]]></send>\n"


def request(
    method: str,
    sequence: int = 1,
    more: Sequence[str] = (),
    body: Sequence[str] = (),
    to: str = "",
    sender: str = CALLER,
    uri: str = URI,
) -> str:
    """A request. `to` is its field To; the branch follows from the number of CSeq, as ACK and CANCEL want."""
    branch = f"z9hG4bK[pid]-[call_number]-{sequence}" + ("b" if method == "BYE" else "")
    fields = (
        f"Via: SIP/2.0/UDP [local_ip]:[local_port];branch={branch};rport",
        "Max-Forwards: 70",
        f"From: {sender}",
        to or f"To: <{URI}>",
        "Call-ID: [call_id]",
        f"CSeq: {sequence} {method}",
        "Contact: <sip:101@[local_ip]:[local_port]>",
        *more,
    )
    return sent(f"{method} {uri} SIP/2.0", fields, body, method != "ACK")


def response(status: int, body: Sequence[str] = (), more: Sequence[str] = (), tag: str = "", method: str = "") -> str:
    """A response to the last request, or to the first one if a method is given. To an INVITE it adds the tag of this side."""
    fields = [f"{field}{tag}" if field == "[last_To:]" else field for field in BACK]
    if method:
        fields[-1] = f"CSeq: 1 {method}"
    contact = "Contact: <sip:[local_ip]:[local_port]>"
    return sent(f"SIP/2.0 {status} R", [*fields, contact, *more], body, bool(body) and status == 200)


def expects(response: int, *texts: str, more: str = "") -> str:
    """A response, and texts of its fields or body."""
    words = ' auth="true"' if response == 401 else more
    found = "".join(f'<ereg regexp="{text}" search_in="msg" check_it="true" assign_to="found"/>' for text in texts)
    return f'<recv response="{response}"{words}>' + (f"<action>{found}</action>" if found else "") + "</recv>\n"


def gets(method: str) -> str:
    routes = ROUTES if method == "INVITE" else ""
    return f'<recv request="{method}"{routes}/>\n'


def gets_ack() -> str:
    """ACK, whose From is the To of later requests of this side."""
    found = '<ereg regexp="sip:.*" search_in="hdr" header="From:" assign_to="found"/>'
    return f'<recv request="ACK"><action>{found}</action></recv>\n'


def acknowledges(sequence: int) -> str:
    """ACK to a refusal."""
    return request("ACK", sequence, to="[last_To:]")


def within(method: str, sequence: int, *steps: str, more: Sequence[str] = (), body: Sequence[str] = ()) -> str:
    """A request within a call, along its routes."""
    return request(method, sequence, ["[routes]", *more], body, "[last_To:]", uri="[next_url]") + "".join(steps)


def pause(milliseconds: int) -> str:
    return f'<pause milliseconds="{milliseconds}"/>\n'


def credentials(password: str = PASSWORD) -> str:
    return f"[authentication username=101 password={password}]"


# ---- parts of scenarios

SDP = description()
TRYING = expects(100, more=' optional="true"')


def proved_invite(body: Sequence[str] = SDP, sender: str = CALLER, password: str = PASSWORD) -> str:
    """An INVITE that is challenged, and comes again with the password of 101."""
    again = request("INVITE", 2, [credentials(password)], body, sender=sender)
    return request("INVITE", 1, [], body, sender=sender) + expects(401) + acknowledges(1) + again


def invite(body: Sequence[str] = SDP) -> str:
    return proved_invite(body) + TRYING


def without_password(one: Scenario) -> Scenario:
    """A scenario as a peer has it, whose INVITE is not challenged."""
    _, _, again = one.caller.partition(expects(401) + acknowledges(1))
    return Scenario(f"{one.name}_of_a_peer", again.replace(f"{credentials()}\n", ""), one.called)


def refused(status: int, *texts: str) -> str:
    return expects(status, *texts) + acknowledges(2)


def register(seconds: int, sender: str = CALLER, password: str = PASSWORD, sequence: int = 1) -> str:
    to, expires = f"To: {sender.partition(';')[0]}", f"Expires: {seconds}"
    again = request("REGISTER", sequence + 1, [expires, credentials(password)], to=to, sender=sender, uri=REGISTRAR)
    return request("REGISTER", sequence, [expires], to=to, sender=sender, uri=REGISTRAR) + expects(401) + again


RINGS = response(180, tag=OWN_TAG)
ANSWERS = response(200, SDP, tag=OWN_TAG)
RINGING = expects(183, "m=audio")  # with the ringing tone of the exchange
ENDS = within("BYE", 9, expects(200))
IS_ENDED = gets("BYE") + response(200)
CALL = invite() + RINGING + expects(200, "m=audio [0-9]+ RTP/AVP 8", more=ROUTES) + within("ACK", 2)
CALLED_RINGS_AND_ANSWERS = gets("INVITE") + RINGS + ANSWERS
CALLED_ENDS = request("BYE", 9, ["[routes]"], (), "To: <[$found]", "<sip:[local_ip]>" + OWN_TAG, "[next_url]") + expects(200)
CALLED_CALL = CALLED_RINGS_AND_ANSWERS + gets("ACK") + IS_ENDED
IS_CANCELLED = gets("CANCEL") + response(200, tag=OWN_TAG) + response(487, tag=OWN_TAG, method="INVITE") + gets("ACK")
CANCELS = request("CANCEL", 2) + expects(200) + refused(487)


def called_refuses(status: int, *more: str) -> str:
    return gets("INVITE") + response(status, more=more, tag=OWN_TAG) + gets("ACK")


def offered(sequence: int, body: Sequence[str], *texts: str, answer: Sequence[str] = ()) -> str:
    """INVITE within the call."""
    confirmed = within("ACK", sequence, body=answer)
    return within("INVITE", sequence, TRYING, expects(200, *texts, more=ROUTES), confirmed, body=body)


def challenged(sequence: int, more: Sequence[str] = ()) -> str:
    """An INVITE that gets 401."""
    return request("INVITE", sequence, more, SDP) + expects(401) + acknowledges(sequence)


NO_CALL = (
    Scenario("register", register(3600) + expects(200, "expires=3600")),
    Scenario("register_and_leave", register(60) + expects(200, "expires=60") + register(0, sequence=3) + expects(200)),
    Scenario("register_wrong_password", register(3600, password="wrong") + expects(401)),
    Scenario("register_too_brief", register(30) + expects(423, "Min-Expires: 60")),
    Scenario("register_as_another", register(3600, ANOTHER) + expects(403)),
    Scenario("options", request("OPTIONS") + expects(200, "Allow: INVITE")),
    Scenario("subscribe", request("SUBSCRIBE") + expects(405, "Allow: INVITE")),
    Scenario("bye_without_a_call", request("BYE", to=f"To: <{URI}>;tag=none") + expects(481)),
    Scenario("cancel_without_a_call", request("CANCEL") + expects(481)),
)
REFUSED_AT_ONCE = (
    Scenario("invite_without_a_password", challenged(1) + challenged(2, ["Authorization: Digest"])),
    Scenario("invite_wrong_password", proved_invite(password="wrong") + expects(401) + acknowledges(2)),
    Scenario("invite_as_another", proved_invite(sender=ANOTHER) + refused(403)),
    Scenario("required_extension", request("INVITE", 1, ["Require: 100rel"], SDP) + expects(420, "Unsupported: 100rel") + acknowledges(1)),
    Scenario("no_hops_left", request("INVITE", 1, [], SDP).replace("Forwards: 70", "Forwards: 0") + expects(483) + acknowledges(1)),
    Scenario("another_scheme", request("INVITE", 1, [], SDP, uri="tel:[service]") + expects(416) + acknowledges(1)),
    Scenario("no_g711", invite(description("3 18")) + refused(488)),
    Scenario("speech_to_another_machine", invite(description(host="192.0.2.7")) + refused(488)),
    Scenario("no_digits", invite() + refused(404, "cause=1"), number="bob"),
)
REFUSED_BY_THE_EXCHANGE = (
    Scenario("unallocated_number", invite() + refused(404, "cause=1"), number="888"),
    Scenario("incomplete_number", invite() + refused(484, "cause=28"), number="3"),
    Scenario("absent_telephone", invite() + refused(480, "cause=20"), number="103"),
)
CALLS = (
    Scenario("call", CALL + pause(200) + ENDS, CALLED_CALL),
    Scenario("called_ends", CALL + IS_ENDED, CALLED_RINGS_AND_ANSWERS + gets_ack() + pause(200) + CALLED_ENDS),
    Scenario("late_offer", invite(()) + RINGING + expects(200, "RTP/AVP 8 0 101", more=ROUTES) + within("ACK", 2, body=SDP) + ENDS, CALLED_CALL),
    Scenario("busy", invite() + refused(486, "cause=17"), called_refuses(486)),
    Scenario("declined", invite() + refused(603, "cause=21"), called_refuses(603)),
    Scenario("cause_of_the_called", invite() + refused(410, "cause=22"), called_refuses(480, "Reason: Q.850;cause=22")),
    Scenario("redirected", invite() + refused(480, "cause=31"), called_refuses(302)),
    Scenario("answer_without_g711", invite() + refused(503, "cause=88"), gets("INVITE") + response(200, description("18"), tag=OWN_TAG)
             + gets("ACK") + IS_ENDED),
    Scenario("no_answer", invite() + RINGING + refused(480, "cause=19"), gets("INVITE") + RINGS + IS_CANCELLED),
    Scenario("cancelled_before_ringing", proved_invite() + expects(100) + pause(200) + CANCELS, gets("INVITE") + response(100) + IS_CANCELLED),
    Scenario("cancelled_while_ringing", invite() + RINGING + CANCELS, gets("INVITE") + RINGS + IS_CANCELLED),
    Scenario("hold_and_retrieve", CALL + offered(3, description(direction="sendonly"), "a=recvonly") + offered(4, SDP, "a=sendrecv") + ENDS,
             CALLED_CALL),
    Scenario("invite_within_without_an_offer", CALL + offered(3, (), "RTP/AVP 8 0 101", answer=SDP) + ENDS, CALLED_CALL),
    Scenario("requests_within", CALL + within("INFO", 3, expects(200), more=["Content-Type: application/dtmf-relay"],
             body=["Signal=5", "Duration=160"]) + within("OPTIONS", 4, expects(200)) + within("UPDATE", 5, expects(405)) + ENDS, CALLED_CALL),
)
ROOM = Scenario("room", invite() + expects(200, more=ROUTES) + within("ACK", 2) + pause(300) + ENDS, number="30")

SCENARIOS = (*NO_CALL, *REFUSED_AT_ONCE, *REFUSED_BY_THE_EXCHANGE, *CALLS, ROOM)
NAMES_OF_PROXIED = ("call", "called_ends", "late_offer", "busy", "cancelled_while_ringing", "hold_and_retrieve")
PROXIED = tuple(without_password(one) for one in CALLS if one.name in NAMES_OF_PROXIED)  # through a proxy, which is trusted


def main(folder: str) -> None:
    for one in (*SCENARIOS, *PROXIED):
        for name, text in one.files.items():
            (Path(folder) / name).write_text(text)


if __name__ == "__main__":
    main(*sys.argv[1:])
