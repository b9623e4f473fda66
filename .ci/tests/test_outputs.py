"""What the tools print of the traces and reports of examples/."""

from __future__ import annotations

import struct
import tempfile
import unittest
from pathlib import Path

import support
from support import EXAMPLES, PAIRED, TRACES, WANTED, is_refused, packets, report_of, signals, slow, tool, wav


class Outputs(unittest.TestCase):
    @slow
    def test_every_run_is_taken(self) -> None:
        for trace in TRACES:
            if is_refused(trace):
                continue
            for name in PAIRED:
                with self.subTest(tool=name, trace=trace.name):
                    status, _, said = tool(name, trace, report_of(trace))
                    self.assertEqual((status, said), (0, ""))

    def test_texts(self) -> None:
        for wanted in sorted(WANTED.iterdir()):
            options = ["--svg"] if wanted.suffix == ".svg" else []
            name = "moves" if options else wanted.suffix[1:]
            trace = EXAMPLES / f"{wanted.stem}.trace"
            with self.subTest(wanted=wanted.name):
                _, output, _ = tool(name, *options, trace, report_of(trace))
                self.assertEqual(output.decode(), wanted.read_text())

    @slow
    def test_captures(self) -> None:
        for trace in TRACES:
            if is_refused(trace):
                continue
            with self.subTest(trace=trace.name):
                _, output, _ = tool("pcap", trace, report_of(trace))
                read = []
                for _, packet in packets(output):
                    kind, protocol = struct.unpack(">H12xH", packet[:16])
                    self.assertEqual(protocol, 0x0030)
                    address, tei = packet[16], packet[17]
                    self.assertEqual((address, tei & 1), (2 if kind == 4 else 0, 1))
                    read.append((tei >> 1, kind == 4, packet[20:]))
                self.assertEqual(read, list(signals(trace)))

    def test_headers_of_a_capture(self) -> None:
        trace = EXAMPLES / "whole_call.trace"
        _, output, _ = tool("pcap", trace, report_of(trace))
        heads = [(time, packet[17] >> 1, packet[18] >> 1, packet[19] >> 1) for time, packet in packets(output)]
        # Time, line, N(S), N(R): the SETUP, what is sent for it, and ALERTING of line 1.
        self.assertEqual(heads[:4], [(0, 0, 0, 0), (0, 0, 0, 1), (0, 1, 0, 0), (0, 1, 0, 1)])
        # Three frames later the caller's third message acknowledges three of the exchange.
        self.assertEqual(heads[9], (375, 0, 2, 3))

    def test_messages_of_frames(self) -> None:
        """A message that is sent in a frame comes behind it, and is counted with its line's messages."""
        trace = EXAMPLES / "called_user_silent.trace"
        _, output, _ = tool("pcap", trace, report_of(trace))
        heads = [(time // 125, packet[17] >> 1, packet[18] >> 1) for time, packet in packets(output)]
        # Frames, line, N(S): SETUP again, RELEASE COMPLETE of line 1 and DISCONNECT of line 0.
        self.assertEqual(heads[3:6], [(31, 1, 1), (61, 1, 2), (61, 0, 1)])
        for trace in TRACES:
            report = report_of(trace).read_text()
            in_frames = sum(line.count(" send ") for line in report.splitlines() if " frame " in line)
            in_all = sum(is_sent for _, is_sent, _ in signals(trace))
            of_messages = sum(line.count(":") for line in report.splitlines() if " message" in line)
            self.assertEqual(in_all, in_frames + of_messages, trace.name)

    def test_sounds(self) -> None:
        for line, samples in ((0, "D5D5818283"), (1, "D5D5010203")):
            with self.subTest(line=line):
                _, output, _ = tool("audio", EXAMPLES / "two_frame_delay.report", line, 1)
                octets = bytes.fromhex(samples)
                layout = struct.pack("<IHHIIHHH", 18, 6, 1, 8000, 8000, 1, 8, 0)
                head = b"WAVEfmt " + layout + b"fact" + struct.pack("<II", 4, 5) + b"data" + struct.pack("<I", 5)
                # The data have an odd length, so an octet follows them.
                self.assertEqual(output[8:], head + octets + b"\0")
                self.assertEqual(output[:8], b"RIFF" + struct.pack("<I", len(output) - 8))

    def test_tones(self) -> None:
        """The line of a sound has its octets. What is longer than a tone is refused."""
        for samples, wanted in ((8000, b""), (8001, b"sounds: some.wav has 8,001 samples, and a tone has 1 to 8,000\n")):
            with self.subTest(samples=samples), tempfile.TemporaryDirectory() as name:
                folder = Path(name)
                (folder / "some.wav").write_bytes(wav(bytes([0x12, 0xD5] * (samples // 2) + [0x12] * (samples % 2)), tag=6, bits=8))
                status, output, said = tool("sounds", "--tone", "busy", "some.wav", folder=folder)
                line = f"tone busy {'12D5' * 4000}\n".encode()
                self.assertEqual((status, output, said.encode()), (1, b"", wanted) if wanted else (0, line, b""))
        self.assertEqual(tool("sounds", "--tone", "dial", "some.wav").status, 2)

    def test_sounds_that_are_none(self) -> None:
        """A line of which the report has nothing is refused, and of a silent channel it is said that it is."""
        said = "has no octets of line 2: it was sent idle octets alone, or there is no such line"
        found = tool("audio", "two_frame_delay.report", 0, 1, 2, 1)
        self.assertEqual(found, (1, b"", f"audio: two_frame_delay.report {said}\n"))
        status, output, said = tool("audio", "two_frame_delay.report", 0, 1, 0, 7)
        self.assertEqual((status, said), (0, "audio: 0/7 was sent idle octets alone\n"))
        self.assertEqual(output[-10:], bytes.fromhex("D5D5D5D581D582D583D5"))

    def test_places_beyond_channel_16(self) -> None:
        _, output, _ = tool("audio", EXAMPLES / "busy_slot.report", 2, 31)
        self.assertEqual(output[-4:-1], bytes.fromhex("D5D522"))

    def test_refused_traces(self) -> None:
        for trace in filter(is_refused, TRACES):
            _, line, reason = report_of(trace).read_text().split()
            for name in PAIRED:
                with self.subTest(tool=name, trace=trace.name):
                    said = f"{name}: {trace.name} is no trace: line {line}, {reason}\n"
                    self.assertEqual(tool(name, trace.name, report_of(trace).name), (1, b"", said))

    def test_refused_reports(self) -> None:
        cases = (
            ("whole_call.trace", "refused_slot.report", "is the report of a refusal: refused 3 slot"),
            ("whole_call.trace", "whole_call.trace", "is no report: line 1"),
            ("whole_call.trace", "silence.report", "is not the report of whole_call.trace: line 1"),
            ("whole_call.trace", "call_to_a_room.report", "is not the report of whole_call.trace: it has too few lines"),
            ("call_to_a_room.trace", "whole_call.report", "is not the report of call_to_a_room.trace: line 1"),
        )
        for trace, report, said in cases:
            for name in PAIRED:
                with self.subTest(tool=name, report=report):
                    self.assertEqual(tool(name, trace, report), (1, b"", f"{name}: {report} {said}\n"))
        said = "audio: whole_call.trace is no report: line 1\n"
        self.assertEqual(tool("audio", "whole_call.trace", 0, 1), (1, b"", said))


if __name__ == "__main__":
    support.main()
