"""What tools/unpcap reads of captures."""

from __future__ import annotations

import re
import struct
import subprocess

import support
from nemzhuul.programs.program import PROGRAM
from support import EXAMPLES, TRACES, InFolder, Ran, is_refused, needs_program, of_blocks, of_packets, packets, report_of, signals, slow, tool


class Captures(InFolder):
    """What is read from captures that tools/pcap wrote, and from some that are made here."""

    def read(self, capture: bytes, *options: str) -> Ran:
        path = self.folder / "some.pcap"
        path.write_bytes(capture)
        return tool("unpcap", *options, path.name, folder=self.folder)

    @staticmethod
    def arrivals(trace: str) -> list[tuple[int, bytes]]:
        """The line and the octets of each message of a trace."""
        words = (line.split() for line in trace.splitlines() if line.startswith("M "))
        return [(int(line), bytes.fromhex("".join(digits))) for _, line, *digits in words]

    @slow
    def test_there_and_back(self) -> None:
        """A capture of a run, read again, has its messages, each way on a line."""
        for trace in TRACES:
            if is_refused(trace) or not any(signals(trace)):
                continue
            with self.subTest(trace=trace.name):
                run = list(signals(trace))
                _, capture, _ = tool("pcap", trace, report_of(trace))
                place = {line: at for at, line in enumerate(sorted({line for line, _, _ in run}))}
                if len(place) <= 16:  # each line becomes two, and an exchange has 32
                    status, output, said = self.read(capture)
                    self.assertEqual((status, said), (0, ""))
                    both = [(2 * place[line] + is_sent, octets) for line, is_sent, octets in run]
                    self.assertEqual(self.arrivals(output.decode()), both)
                _, output, _ = self.read(capture, "--users")
                arrived = [(line, octets) for line, is_sent, octets in run if not is_sent]
                self.assertEqual(self.arrivals(output.decode()), arrived)

    def test_text(self) -> None:
        trace = EXAMPLES / "call_to_a_room.trace"
        _, capture, _ = tool("pcap", trace, report_of(trace))
        _, output, _ = self.read(capture)
        wanted = """\
            # The messages of some.pcap
            exchange 1 2 0 1
            number 30 line 1
            # packet 1, from TEI 0: SETUP 0001: number 30
            M 0 080200010504038090A37003803330
            sync
            # packet 2, to TEI 0: CALL PROCEEDING 8001: channel 1
            M 1 08028001021803A98381
            sync
            # packet 3, to TEI 0: CONNECT 8001
            M 1 0802800107
            sync
            """
        self.assertEqual(output.decode().splitlines(), [line.strip() for line in wanted.splitlines()][:-1])

    def test_numbers_in_parts(self) -> None:
        """A number has the digits of a SETUP and of the INFORMATION that follows it."""
        trace = EXAMPLES / "dialled_in_parts.trace"
        _, capture, _ = tool("pcap", trace, report_of(trace))
        _, output, _ = self.read(capture)
        heads = [line for line in output.decode().splitlines() if line.startswith(("exchange", "number"))]
        self.assertEqual(heads, ["exchange 1 4 0 1", "number 101 line 1"])

    @needs_program
    def test_a_call_is_replayed(self) -> None:
        """The side of one endpoint of a call is captured: its messages, each way on a line, are a call again."""
        trace = EXAMPLES / "whole_call.trace"
        _, capture, _ = tool("pcap", trace, report_of(trace))
        side = [packet for _, packet in packets(capture) if packet[17] >> 1 == 0]
        _, output, _ = self.read(of_packets(side))
        report = subprocess.run([PROGRAM, "run"], input=output, stdout=subprocess.PIPE, check=True).stdout
        answered = b"4 message moved 0 0 1:080200010F 0:0802800107"
        self.assertEqual(report.splitlines()[3], answered)
        self.assertEqual(len(report.splitlines()), 8)

    @needs_program
    def test_calls_are_replayed_with_the_references_of_the_exchange(self) -> None:
        """Two calls from a user and one to it, with references that the exchange would not choose."""
        setup, proceeding, answer = "05 04038090A3 7002803{}", "02 1803A98381", "07"
        signals = []
        for reference, caller, called, digit in ((17, 0, 2, 5), (18, 0, 2, 5), (700, 2, 0, 6)):
            own, other = f"0802{reference:04X}", f"0802{reference | 0x8000:04X}"
            signals += [(caller, own + setup.format(digit)), (called, other + proceeding), (called, other + answer)]
        frames = [bytes(16) + bytes([way, 1, 0, 0]) + bytes.fromhex(octets) for way, octets in signals]
        status, output, said = self.read(of_packets(frames), "--replay")
        self.assertEqual((status, said), (0, ""))
        given = [(line, octets[2:5].hex()) for line, octets in self.arrivals(output.decode())]
        wanted = [(0, "001105"), (1, "800102"), (1, "800107"), (0, "001205"), (1, "800202"), (1, "800207")]
        self.assertEqual(given, [*wanted, (1, "02bc05"), (0, "800102"), (0, "800107")])
        report = subprocess.run([PROGRAM, "run"], input=output, stdout=subprocess.PIPE, check=True).stdout
        self.assertEqual(report.count(b"message moved"), 3)

    def test_other_captures(self) -> None:
        """The order of octets, nanoseconds, the link type without a pseudo header, and frames that carry no message."""
        some = ("00010000 0802000175", "00010104", "00017F", "FC010000 0F", "02010002 080280017D")
        frames = list(map(bytes.fromhex, some))
        for link, header in ((177, bytes(16)), (203, b"")):
            for order in "<>":
                for magic in (0xA1B2C3D4, 0xA1B23C4D):
                    with self.subTest(link=link, order=order, magic=magic):
                        capture = of_packets([header + frame for frame in frames], link, order, magic)
                        status, output, said = self.read(capture)
                        self.assertEqual((status, said), (0, ""))
                        wanted = [(0, b"\x08\x02\x00\x01\x75"), (1, b"\x08\x02\x80\x01\x7d")]
                        self.assertEqual(self.arrivals(output.decode()), wanted)

    def test_pcapng(self) -> None:
        """Either order of octets, times of other units, simple packets, and two sections."""
        frame = bytes(16) + bytes.fromhex("00010000 0802000175")
        for order in "<>":
            for is_simple in (False, True):
                with self.subTest(order=order, is_simple=is_simple):
                    one = of_blocks([(5, 0, frame)], order=order, is_simple=is_simple)
                    status, output, said = self.read(one + of_blocks([(5, 0, frame[16:])], link=203))
                    self.assertEqual((status, said), (0, ""))
                    self.assertEqual(self.arrivals(output.decode()), [(0, b"\x08\x02\x00\x01\x75")] * 2)

    @needs_program
    def test_times_are_replayed(self) -> None:
        """A frame passes for each 125 microseconds, whatever the unit of the capture's times."""
        frame = bytes(16) + bytes.fromhex("00010000 0802000175")
        captures = (
            of_packets([frame] * 3, times=(7_999_000, 8_000_000, 8_000_125)),
            of_blocks([(time, 0, frame) for time in (7_999_000, 8_000_000, 8_000_125)]),
            of_blocks([(time, 0, frame) for time in (63_992 << 10, 64_000 << 10, 64_001 << 10)], resolution=0x80 | 23),
            of_blocks([(time, 0, frame) for time in (7_999_000_000, 8_000_000_000, 8_000_125_000)], resolution=9),
        )
        wanted = ["M 0 0802000175", *["F"] * 8, "M 0 0802000175", "F", "M 0 0802000175"]
        for at, capture in enumerate(captures):
            with self.subTest(capture=at):
                status, output, said = self.read(capture, "--replay")
                self.assertEqual((status, said), (0, ""))
                lines = output.decode().splitlines()
                self.assertEqual([line for line in lines if line[0] in "MF"], wanted)

    def test_long_pauses_are_shortened(self) -> None:
        """All frames of a trace are used, and no short pause is changed."""
        frame = bytes(16) + bytes.fromhex("00010000 0802000175")
        capture = of_packets([frame] * 4, times=(0, 125, 60_000_125, 90_000_125))
        status, output, said = self.read(capture, "--replay")
        longest = (65_535 - 4 - 1) // 2
        self.assertEqual((status, said), (0, "unpcap: some.pcap lasts for 720001 frames, and a trace has room for 65531: "
                                             f"no pause is longer than {longest} frames\n"))  # fmt: skip
        pauses = [int(count) for count in re.findall("# ([0-9]+) frames pass", output.decode())]
        self.assertEqual(pauses, [1, longest, longest])

    def test_refused_captures(self) -> None:
        one = bytes(16) + b"\x00\x01\x00\x00"
        whole = of_packets([one])
        cut = whole[:36] + struct.pack(">I", 40) + whole[40:]
        long = of_packets([one + bytes(261)])
        cases = (
            (b"", "is no capture"),
            (b"exchange 1 1 0 1\n", "is no capture"),
            (whole[:20], "is no capture: its header is cut short"),
            (b"\x0a\x0d\x0d\x0a" + bytes(40), "is no capture: a section has no order of octets"),
            (of_blocks([(0, 0, one)])[:-1], "is cut short or damaged at octet 100"),
            (of_blocks([(0, 1, one)]), "has a damaged packet 1"),
            (of_blocks([(0, 0, one)], link=1), "has link type 1, and neither LINUX_LAPD (177) nor LAPD (203)"),
            (of_packets([], link=1), "has link type 1, and neither LINUX_LAPD (177) nor LAPD (203)"),
            (whole[:30], "ends within the header of packet 1"),
            (whole[:-1], "ends within packet 1"),
            (cut, "has 20 of the 40 octets of packet 1"),
            (of_packets([one, one[:18]]), "has a packet 2 that is too short for a frame of LAPD"),
            (of_packets([one, one[:19]]), "has a packet 2 that is too short for an I frame"),
            (of_packets([]), "has no message of signalling"),
            (long, "has a message of 261 octets in packet 1, and a trace takes 260"),
        )
        for capture, said in cases:
            with self.subTest(said=said):
                self.assertEqual(self.read(capture), (1, b"", f"unpcap: some.pcap {said}\n"))
        terminals = [bytes(16) + bytes([0, tei << 1 | 1, 0, 0]) for tei in range(17)]
        said = "unpcap: some.pcap has 17 endpoints, and an exchange has lines for 16\n"
        self.assertEqual(self.read(of_packets(terminals)), (1, b"", said))
        said = "unpcap: some.pcap has TEI 64, and an exchange has lines 0 to 31\n"
        self.assertEqual(self.read(of_packets([one[:17] + b"\x81\0\0"]), "--users"), (1, b"", said))


if __name__ == "__main__":
    support.main()
