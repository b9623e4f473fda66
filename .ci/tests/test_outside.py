"""What SoX and tshark read of what the tools write."""

from __future__ import annotations

import re
import shutil
import subprocess
import tempfile
import unittest
from pathlib import Path

import support
from support import CONVERSATION_FRAMES, EXAMPLES, LINKED, TRACES, is_refused, report_of, signals, tool


class Outside(unittest.TestCase):
    """What programs outside read of what the tools write: each octet of a sound, each message of a capture."""

    @unittest.skipUnless(shutil.which("sox"), "sox is not there")
    def test_sounds(self) -> None:
        _, output, _ = tool("audio", "conversation.report", 0, 1, 1, 1, 2, 1)
        data = output[-3 * CONVERSATION_FRAMES :]
        for channel in range(3):
            words = ["sox", "-D", "-t", "wav", "-", "-t", "al", "-", "remix", str(channel + 1)]
            read = subprocess.run(words, input=output, capture_output=True, check=True).stdout
            self.assertEqual(read, data[channel::3], f"channel {channel}")

    @unittest.skipUnless(shutil.which("tshark"), "tshark is not there")
    def test_captures(self) -> None:
        runs = [trace for trace in TRACES if not is_refused(trace)]
        captures = [tool("pcap", trace, report_of(trace))[1] for trace in runs]
        words = ["tshark", "-r", "-", "-T", "fields"]
        for field in ("lapd.tei", "lapd.direction", "q931.message_type", "q931.call_ref", "q931.call_ref_flag"):
            words += ["-e", field]
        one = captures[0][:24] + b"".join(capture[24:] for capture in captures)
        read = subprocess.run(words, input=one, capture_output=True, check=True).stdout.decode().splitlines()
        written = [signal for trace in runs for signal in signals(trace)]
        self.assertEqual(len(read), len(written))
        for fields, (line, sent, octets) in zip(read, written):
            wanted = [str(line), str(int(sent))]
            if octets[:2] == b"\x08\x02" and len(octets) > 4:  # call control, with a reference of two octets
                reference = bytes([octets[2] & 0x7F, octets[3]]).hex()
                wanted += [f"0x{octets[4]:02x}", reference, str(octets[2] >> 7)]
            self.assertEqual(fields.split("\t")[: len(wanted)], wanted)

    @unittest.skipUnless(shutil.which("tshark"), "tshark is not there")
    def test_frames_of_data_links(self) -> None:
        """Their direction, and their kind, as the control field says them."""
        _, output, _ = tool("pcap", LINKED, report_of(LINKED))
        words = ["tshark", "-r", "-", "-T", "fields", "-e", "lapd.direction", "-e", "_ws.col.Info"]
        read = subprocess.run(words, input=output, capture_output=True, check=True).stdout.decode().splitlines()
        wanted = ["0 U P, func=SABME", "1 U F, func=UA", "0 I, N(R)=0, N(S)=0", "1 I, N(R)=1, N(S)=0", "1 I, N(R)=0, N(S)=0"]
        self.assertEqual([re.sub(r"\t(TEI:\d\d )?", " ", line.split(" | ")[0]).strip() for line in read][:5], wanted)

    @unittest.skipUnless(shutil.which("tshark"), "tshark is not there")
    def test_captures_that_tshark_wrote(self) -> None:
        trace = EXAMPLES / "whole_call.trace"
        with tempfile.TemporaryDirectory() as folder:
            ours = Path(folder) / "pcap"
            ours.write_bytes(tool("pcap", trace, report_of(trace))[1])
            for kind in ("pcap", "nsecpcap"):
                theirs = Path(folder) / f"{kind}.again"
                subprocess.run(["tshark", "-r", ours, "-F", kind, "-w", theirs], capture_output=True, check=True)
                said = [tool("unpcap", capture)[1].splitlines()[1:] for capture in (ours, theirs)]
                self.assertEqual(said[0], said[1], kind)


if __name__ == "__main__":
    support.main()
