"""The picture of recordings: tools/spectrogram."""

from __future__ import annotations

import re
import xml.etree.ElementTree as xml
from math import pi, sin

import support
from support import InFolder, octet_of_sample, tool, wav
from nemzhuul.pictures import spectrograms


def tone(hertz: int, seconds: float = 1) -> bytes:
    """A sound of one pitch, in A-law."""
    return bytes(octet_of_sample(round(9_000 * sin(2 * pi * hertz * at / 8_000))) for at in range(round(8_000 * seconds)))


class Spectrograms(InFolder):
    def setUp(self) -> None:
        super().setUp()
        for hertz in (260, 600):
            (self.folder / f"{hertz}.wav").write_bytes(wav(tone(hertz), tag=6, bits=8))

    def test_the_pitches(self) -> None:
        """The loudest places of a panel are at the pitch of its sound, all the time, and nowhere else."""
        status, output, said = tool("spectrogram", "--title", "low & <slow>", "260.wav", "600.wav", folder=self.folder)
        self.assertEqual((status, said), (0, ""))
        texts = [element.text for element in xml.fromstring(output).iter("{http://www.w3.org/2000/svg}text")]
        self.assertTrue({"low & <slow>", "600.wav", "0 s", "1 s", "400 Hz"} <= set(texts))
        loudest = re.findall(rf'<path fill="{spectrograms.SHADES[0]}" d="([^"]*)"/>', output.decode())
        for hertz, top, cells in zip((260, 600), (spectrograms.GAP, 2 * spectrograms.GAP + spectrograms.HEIGHT), loudest):
            with self.subTest(hertz=hertz):
                rows = [float(y) for y in re.findall(r"M[0-9.]+ ([0-9.]+)h", cells)]
                high = spectrograms.HEIGHT / (spectrograms.HIGHEST - spectrograms.LOWEST)
                self.assertTrue(all(abs(spectrograms.HIGHEST - (y - top) / high - hertz) < 25 for y in rows), rows)
                widths = [float(width) for width in re.findall(r"h([0-9.]+)v", cells)]
                self.assertGreater(max(widths), 500)

    def test_the_first_seconds(self) -> None:
        (self.folder / "long.wav").write_bytes(wav(tone(260, 3), tag=6, bits=8))
        _, output, _ = tool("spectrogram", "--seconds", 2, "long.wav", folder=self.folder)
        self.assertIn(">2 s</text>", output.decode())
        self.assertNotIn(">3 s</text>", output.decode())

    def test_refusals(self) -> None:
        (self.folder / "short.wav").write_bytes(wav(tone(400, 0.1), tag=6, bits=8))
        (self.folder / "text").write_text("no sound")
        cases = (
            ("short.wav", "spectrogram: short.wav has 800 samples, and a picture needs 1,024\n"),
            ("text", "spectrogram: text is no WAV file\n"),
            ("none", "spectrogram: none cannot be read: No such file or directory\n"),
        )
        for path, said in cases:
            with self.subTest(path=path):
                self.assertEqual(tool("spectrogram", path, folder=self.folder), (1, b"", said))
        for words in ("", "--title", "--title text", "--loud 260.wav", "--seconds 0 260.wav", "--seconds 61 260.wav", "--seconds"):
            with self.subTest(words=words):
                self.assertEqual(tool("spectrogram", *words.split(), folder=self.folder)[0], 2)


if __name__ == "__main__":
    support.main()
