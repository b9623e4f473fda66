"""Three people in a room."""

from __future__ import annotations

import shutil
import struct
import wave

import support
from support import CONVERSATION_FRAMES, EXAMPLES, IDLE, InFolder, needs_program, octet_of_sample, octet_of_value, slow, tool, value_of_octet


class Conversation(InFolder):
    """Three people in a room: what each hears is worked out from the sounds that they make."""

    SOUNDS = (("low.wav", 0), ("high.wav", 4000), ("rising.wav", 8000))  # by line, with the first frame

    def setUp(self) -> None:
        super().setUp()
        self.assertEqual(tool("sounds", self.folder), (0, b"", ""))

    @needs_program
    @slow
    def test_the_script_makes_the_trace(self) -> None:
        shutil.copy(EXAMPLES / "conversation.script", self.folder)
        status, output, said = tool("script", self.folder / "conversation.script")
        self.assertEqual((status, said), (0, ""))
        self.assertEqual(output, (EXAMPLES / "conversation.trace").read_bytes())

    def spoken(self, name: str, first: int) -> list[int]:
        """The octet of each frame of a sound that begins in a frame."""
        with wave.open(str(self.folder / name)) as sound:
            self.assertEqual(sound.getparams()[:3], (1, 2, 8000))
            samples = struct.unpack(f"<{sound.getnframes()}h", sound.readframes(sound.getnframes()))
        octets = [IDLE] * first + [octet_of_sample(sample) for sample in samples]
        return octets + [IDLE] * (CONVERSATION_FRAMES - len(octets))

    def test_each_hears_the_two_others(self) -> None:
        spoken = [self.spoken(*sound) for sound in self.SOUNDS]
        _, output, _ = tool("audio", "conversation.report", 0, 1, 1, 1, 2, 1)
        layout = struct.pack("<IHHIIHHH", 18, 6, 3, 8000, 24000, 3, 8, 0)
        fact = b"fact" + struct.pack("<II", 4, CONVERSATION_FRAMES)
        head = b"WAVEfmt " + layout + fact + b"data" + struct.pack("<I", 3 * CONVERSATION_FRAMES)
        self.assertEqual(output[8 : 8 + len(head)], head)
        data = output[8 + len(head) :]
        for line in range(3):
            # In the first four frames nothing that was said in the room can be there.
            others = [octets for other, octets in enumerate(spoken) if other != line]
            mixed = [octet_of_value(sum(map(value_of_octet, pair))) for pair in zip(*others)]
            wanted = [IDLE] * 4 + mixed[: CONVERSATION_FRAMES - 4]
            self.assertEqual(list(data[line::3]), wanted, f"line {line}")
            self.assertGreater(len(set(wanted)), 50)


if __name__ == "__main__":
    support.main()
