"""Traces with data links, and frames and links without a socket."""

from __future__ import annotations

import random
import re
import subprocess

import support
from nemzhuul.programs.program import PROGRAM
from nemzhuul.signalling import lapd, links
from support import LINKED, InFolder, needs_program, packets, report_of, sequence_of, signals, slow, tool


SETUP = bytes.fromhex("080200010504038090A31803A98381700480313031")


class Links(InFolder):
    """Runs with data links, and the frames and the links of the package."""

    def followed(self, lines: list[str]) -> list[str]:
        """The lines of the report of a trace that is followed."""
        trace = "".join(f"{line}\n" for line in lines)
        (self.folder / "some.trace").write_text(trace)
        done = subprocess.run([PROGRAM, "follow"], input=trace, capture_output=True, text=True, check=True)
        (self.folder / "some.report").write_text(done.stdout)
        return done.stdout.splitlines()

    def outage(self, seconds: int, *settings: str) -> list[str]:
        """An answered call, and a link that is released and established again after some seconds."""
        calls = ["L 0 00017F", f"L 0 00010000{SETUP.hex()}", "M 1 0802800107", "L 0 02010104", "L 0 000153"]
        return ["exchange 1 2 0 1", "link 0", "number 101 line 1", *settings, *calls, *["F"] * (8000 * seconds), "L 0 00017F", "L 0 020173", "F"]

    @needs_program
    @slow
    def test_an_outage(self) -> None:
        """T309 runs for 6 s: a call survives an outage of 2 and of 5 s, and 10 s are too long."""
        for seconds, is_cleared in ((2, False), (5, False), (10, True)):
            with self.subTest(seconds=seconds):
                report = self.followed(self.outage(seconds))
                self.assertEqual(report[4], "5 link down 0:000173")
                cleared = [line for line in report if "1:08020001450802829B" in line]
                self.assertEqual(len(cleared), is_cleared)
                if is_cleared:
                    self.assertIn(int(cleared[0].split()[2]), range(48_000, 48_032))
                # In state 5, after 2 s, the link is up when the user answers the SABME of the exchange.
                replies = [line.split(" ", 1)[1] for line in report[-3:-1]]
                sent = " 0:02010000" + ("0802000046790186" if is_cleared else "0802800175")  # RESTART or STATUS ENQUIRY
                wanted = ["link 0:000173", f"link up{sent}"] if seconds == 2 else [f"link up 0:000173{sent}", "link"]
                self.assertEqual(replies, wanted)
                called = [(int(line.split()[2]) + 1) // 8000 for line in report if " send 0:02017F" in line]
                self.assertEqual(called, [second for second in (1, 2, 3, 4, 6, 7, 8, 9) if second <= seconds])

    @needs_program
    def test_a_trace_without_links(self) -> None:
        """`tools/plain` writes a trace whose run has the same octets, messages on other lines, and calls."""
        lines = self.outage(1, "timer T309 4000")
        speaking = "F 0:" + "".join(f"{at:02X}" for at in range(30))
        lines[13:13] = [speaking] * 5
        lines += [speaking] * 5
        meters = ["change"]
        report = self.followed(lines + meters)
        status, output, said = tool("plain", "some.trace", "some.report", folder=self.folder)
        self.assertEqual((status, said), (0, ""))
        plain = output.decode().splitlines()
        self.assertEqual(plain[:2] + [line for line in plain if line[0] in "ud"], ["exchange 1 2 0 1", "number 101 line 1",
                         "down 0", "up 0", "down 0", "up 0"])  # fmt: skip
        done = subprocess.run([PROGRAM, "run"], input=output, capture_output=True, check=True)
        run = done.stdout.decode().splitlines()

        def heard(some: list[str]) -> list[list[str]]:
            return [re.findall("[01]:[0-9A-F]{60}", line) for line in some if " frame " in line]

        def sent(some: list[str]) -> list[str]:
            return [found for line in some for found in re.findall(" (1:[0-9A-F]+)", line) if len(found) != 62]

        self.assertEqual((heard(run), sent(run)), (heard(report), sent(report)))
        self.assertEqual([line for line in run if line[0] == "c"], [line for line in report if line[0] == "c"])
        self.assertEqual(sum(line.startswith("call 0/1 1/1 ") for line in run), 1)

    def test_a_trace_of_another_tool(self) -> None:
        """The other tools take a trace without data links, and say so; a capture has the frames."""
        for name in ("calls", "moves", "page", "records"):
            said = f"{name}: {LINKED.name} has data links: tools/plain writes a trace without them\n"
            self.assertEqual(tool(name, LINKED.name, report_of(LINKED).name), (1, b"", said))
        status, output, said = tool("explain", LINKED.name, report_of(LINKED).name)
        self.assertEqual((status, said), (0, ""))
        self.assertIn("is a trace of `tst follow`, whose data links `tst run` refuses: ", output.decode().splitlines()[0])
        _, output, _ = tool("pcap", LINKED, report_of(LINKED))
        read = [(packet[7], packet[1] == 4, packet[16 if packet[7] == 0 else 20 :]) for _, packet in packets(output)]
        self.assertEqual(read, list(signals(LINKED)))
        # Sent by the network side: type of packet, hardware, length of the address, network side, line, protocol.
        self.assertEqual([packet for _, packet in packets(output)][1].hex(), "000420fd00020100" + "00" * 6 + "0030" + "000173")

    def test_frames(self) -> None:
        """Each frame that is written is read as it was, on either side, and has its name and its check sequence."""
        self.assertEqual(lapd.check_sequence(b"123456789"), bytes.fromhex("6E90"))
        some = [lapd.LinkFrame("I", True, pf, nr, ns, SETUP[:size]) for pf in (False, True) for nr, ns, size in ((0, 127, 0), (127, 0, 21))]
        some += [lapd.LinkFrame(kind, is_command, True, 5) for kind in ("RR", "RNR", "REJ") for is_command in (False, True)]
        some += [lapd.LinkFrame(kind, kind in ("SABME", "DISC"), pf) for kind in ("SABME", "DISC", "UA", "DM") for pf in (False, True)]
        for frame in some:
            for is_from_user in (False, True):
                octets = lapd.write_frame(frame, is_from_user)
                self.assertEqual(lapd.read_frame(octets, is_from_user), frame)
                self.assertNotEqual(lapd.read_frame(octets, not is_from_user), frame)
                self.assertEqual(lapd.check_sequence(octets), sequence_of(octets))
        cases = (("00017F", "SABME, P=1"), ("02010F", "DM, F=0"), ("02010104", "RR, F=0, N(R)=2"),
                 ("0001027F0802000175", "I, P=1, N(S)=1, N(R)=63: STATUS ENQUIRY 0001"), ("FF01", "octets that are discarded"),
                 ("02017F", "a frame that is rejected"), ("0001AF82", "XID, P=0"), ("020187", "FRMR, F=0"))  # fmt: skip
        for digits, text in cases:
            self.assertEqual(lapd.frame_text(bytes.fromhex(digits), True), text)

    def test_two_links(self) -> None:
        """Two links of nemzhuul.signalling.links over wires that lose frames: each message once and in order, or its sender knows."""
        for seed in range(40):
            draw = random.Random(seed)
            pair = [links.Link(is_user, times={"T200": 20, "T203": 200}) for is_user in (True, False)]
            wires: list[list[bytes]] = [[], []]
            epochs: list[list[list[bytes]]] = [[[]], [[]]]
            taken: list[list[bytes]] = [[], []]
            for now in range(600):
                for side, link in enumerate(pair):
                    if now % 7 == 0:
                        epochs[side][-1].append(message := b"%d" % now)
                        link.submit(message, now)
                    told = [link.turn(now)]
                    if wires[1 - side]:
                        octets = wires[1 - side].pop(0)
                        if draw.random() > 0.1 * (seed % 4):
                            told.append(link.receive(octets, now))
                            link.finish(now)
                    for what, information in filter(None, told):
                        if what == links.TOOK and information is not None:
                            taken[side].append(information)
                        else:
                            epochs[side].append([])
                    wires[side] += link.out
                    link.out.clear()
            for side in (0, 1):
                rest = list(taken[1 - side])
                for epoch in epochs[side]:
                    while epoch and rest and epoch[0] == rest[0]:
                        del epoch[0], rest[0]
                self.assertEqual((seed, side, rest), (seed, side, []))
                self.assertGreater(len(taken[side]), 5)


if __name__ == "__main__":
    support.main()
