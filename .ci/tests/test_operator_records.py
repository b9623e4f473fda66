"""Records of calls that a running exchange writes when they end."""

from __future__ import annotations

import csv
import re
import signal
import subprocess
from datetime import datetime, timedelta

import support
from attached import RESTART, Attached, Raw
from support import PATIENCE, command, environment, needs_program, stream, tool
from test_data_links import SETUP, LinkUser

from nemzhuul.live.clock import WallClock
from nemzhuul.live.records import HEADER
from nemzhuul.programs.program import PROGRAM

TIMES = ("setup", "alerting", "answer", "clearing", "release")
CALL = "M 08020001"


@needs_program
class Records(Attached):
    """Calls of lines 0 and 1, and a file with their records."""

    def rows(self, path: str = "records") -> list[dict[str, str]]:
        return list(csv.DictReader((self.folder / path).read_text().splitlines()))

    def until_rows(self, count: int) -> list[dict[str, str]]:
        """Waits until the file has this number of records. An endpoint gets frames meanwhile."""
        for _ in range(PATIENCE * 20):
            if len(self.rows()) >= count:
                break
            signal.sigtimedwait([], 0.05)
        self.assertEqual(len(self.rows()), count)
        return self.rows()

    @staticmethod
    def call(caller: Raw, called: Raw) -> None:
        """A call that is answered."""
        caller.send(f"{CALL}0504038090A3700480313031")
        called.gets("M 0802000105")
        called.send("M 0802800107")
        caller.gets("M 0802800107")

    @staticmethod
    def clear(caller: Raw, called: Raw) -> None:
        caller.send(f"{CALL}4508028090")
        called.gets("M 0802000145")
        called.send("M 080280014D")
        caller.send(f"{CALL}5A")

    def frames(self, row: dict[str, str]) -> dict[str, str]:
        """The row with the frames of its times, by the clocks of the log."""
        lines = (self.folder / "live.trace").read_bytes().splitlines()
        clocks = [clock for clock in map(WallClock.from_comment, lines) if clock]
        found = dict(row)
        for name in TIMES:
            if row[name]:
                self.assertRegex(row[name], r"^20[0-9]{2}-[0-9]{2}-[0-9]{2}T[0-9:]{8}\.[0-9]{6}Z$")
                then = datetime.strptime(row[name], "%Y-%m-%dT%H:%M:%S.%fZ")
                clock = [clock for clock in clocks if clock.text(clock.frame) <= row[name]][-1]
                begun = datetime.strptime(clock.text(clock.frame), "%Y-%m-%dT%H:%M:%S.%fZ")
                found[name] = str(clock.frame + round((then - begun) / timedelta(microseconds=125)))
        return found

    def run_again(self, trace: str, report: str) -> None:
        """Runs a trace to its report."""
        done = subprocess.run([PROGRAM, "follow"], input=(self.folder / trace).read_bytes(), capture_output=True, check=True)
        (self.folder / report).write_bytes(done.stdout)

    def is_as_recorded(self, is_linked: bool = False) -> None:
        """The records are what tools/records prints of the log, in the order in which the calls ended."""
        trace, report = "live.trace", "whole.report"
        self.run_again(trace, report)
        if is_linked:
            (self.folder / "plain.trace").write_bytes(tool("plain", trace, report, folder=self.folder).output)
            trace, report = "plain.trace", "plain.report"
            self.run_again(trace, report)
        status, output, said = tool("records", trace, report, folder=self.folder)
        self.assertEqual((status, said), (0, ""))
        wanted = [row for row in csv.DictReader(output.decode().splitlines()) if row["release"]]
        found = [self.frames(row) for row in self.rows()]
        self.assertEqual(sorted(found, key=str), sorted(wanted, key=str))

    def test_calls_that_end(self) -> None:
        """Each is there when it has ended, also one that is refused, and one whose line is restarted."""
        self.attach("--records", "records")
        caller, called = self.attached(0), self.attached(1)
        self.call(caller, called)
        self.assertEqual(self.rows(), [])
        self.clear(caller, called)
        (row,) = self.until_rows(1)
        self.assertEqual((row["caller"], row["called"], row["number"], row["cause"]), ("0/1", "1/1", "101", "16"))
        caller.send(f"{CALL}0504038090A37003803939")
        self.assertEqual(self.until_rows(2)[1]["cause_name"], "unallocated (unassigned) number")
        self.call(caller, called)
        caller.close()
        called.gets("M 0802000145")
        called.send("M 080280014D")
        self.assertEqual(self.until_rows(3)[2]["cause"], "41")
        self.end()
        self.is_as_recorded()

    def test_a_file_that_goes_on(self) -> None:
        """Another exchange appends to it, behind its last whole line. Other files are refused."""
        (self.folder / "records").write_bytes(HEADER + b"0/1,1/1,101,,,,,,,16,normal\n0/1,1/")
        self.attach("--records", "records")
        caller, called = self.attached(0), self.attached(1)
        self.call(caller, called)
        self.clear(caller, called)
        self.assertEqual([row["cause_name"] for row in self.until_rows(2)], ["normal", "normal call clearing"])
        self.end()

    def test_other_files(self) -> None:
        (self.folder / "notes").write_text("mine\n")
        words = ("--line", "0", "unix:line0", "--records", "notes", "settings")
        status, _, said = tool("attach", *words, folder=self.folder)
        self.assertEqual((status, said.splitlines()[-1]), (1, "attach: notes has no records of calls: its first line is another one"))
        self.assertEqual((self.folder / "notes").read_text(), "mine\n")

    def test_an_exchange_that_was_killed(self) -> None:
        """A call that goes on has one record, with times by both clocks. A record that was not written yet is written."""
        self.attach("--records", "records")
        caller, called = self.attached(0), self.attached(1)
        self.call(caller, called)
        self.clear(caller, called)
        self.until_rows(1)
        self.call(caller, called)
        self.work.kill()
        self.work.wait()
        for kept in (True, False):
            with self.subTest(kept=kept):
                if not kept:  # as if it had not been written
                    text = (self.folder / "records").read_bytes().splitlines(keepends=True)
                    (self.folder / "records").write_bytes(b"".join([text[0], text[1][:20]]))
                lines = ("--line", "0", "unix:line0", "--line", "1", "unix:line1", "--records", "records")
                words = command("attach", *lines, "--resume", "live.trace", "settings")
                with subprocess.Popen(words, cwd=self.folder, env=environment(), stderr=subprocess.PIPE, text=True) as self.work:
                    self.errors = stream(self.work.stderr)
                    self.until("attach: line 1: listens")
                    self.until_rows(1)
                    caller, called = self.attached(0), self.attached(1)
                    if not kept:
                        self.clear(caller, called)
                        self.until_rows(2)
                    self.work.kill()
        self.is_as_recorded()

    def test_a_data_link(self) -> None:
        """A call that comes over a data link has a record too."""
        self.attach("--burst", "5", "--records", "records", lines=(1,), linked=(0,))
        user, endpoint = LinkUser(self.folder / "link0"), self.attached(1)
        self.addCleanup(user.connection.close)
        user.establish()
        user.submit(SETUP)
        user.gets("08028001021803A98381")
        endpoint.gets("M 0802000105")
        endpoint.send("M 0802800107")
        user.gets("0802800107")
        endpoint.send("M 080280014508028090")
        user.gets("080280014508028290")
        user.submit(bytes.fromhex("080200014D"))
        user.gets("080280015A")
        endpoint.send("M 080280015A")
        (row,) = self.until_rows(1)
        self.assertEqual((row["caller"], row["called"], row["number"]), ("0/1", "1/1", "101"))
        self.assertTrue(all(re.match("20..-", row[name]) for name in TIMES if name != "alerting"), row)
        self.end()
        self.is_as_recorded(is_linked=True)

    def waiting_call(self, user: LinkUser) -> Raw:
        """A call of a user who takes no I frames meanwhile, to the endpoint of line 1, which answers."""
        endpoint = self.attached(1)
        user.establish()
        user.gets(RESTART)
        user.is_busy(True)
        user.submit(SETUP)
        endpoint.gets("M 0802000105")
        endpoint.send("M 0802800101", "M 0802800107")
        endpoint.gets("M 080200010F")
        return endpoint

    def end_waiting_call(self, user: LinkUser, endpoint: Raw) -> None:
        """The call ends before the user of the link has any of its messages."""
        endpoint.send("M 080280014508028090")
        endpoint.gets("M 080200014D")
        endpoint.send("M 080280015A")
        user.submit(bytes.fromhex("080200014D"))

    def user(self) -> LinkUser:
        """A user at the data link of line 0, whose T200 runs so long that the exchange does not enquire of it."""
        user = LinkUser(self.folder / "link0")
        self.addCleanup(user.connection.close)
        return user

    def test_messages_that_wait(self) -> None:
        """The record of a call has its answer, although its CONNECT waits for the user of a data link until it has ended."""
        (self.folder / "settings").write_text(self.SETTINGS.replace("\n", "\ntimer T200 80000\n", 1))
        for options in ((), ("--standby",)):
            with self.subTest(options=options):
                self.attach("--burst", "5", "--overwrite", "--records", "records", *options, lines=(1,), linked=(0,))
                user = self.user()
                self.end_waiting_call(user, self.waiting_call(user))
                (row,) = self.until_rows(1)
                self.assertEqual((row["called"], row["cause"], user.messages), ("1/1", "16", []))
                self.assertTrue(all(re.match("20..-", row[name]) for name in TIMES), row)
                user.is_busy(False)
                for message in ("0802800101", "0802800107", "080280014508028290"):
                    user.gets(message)
                self.end()
                self.is_as_recorded(is_linked=True)
                (self.folder / "records").unlink()

    def test_messages_that_wait_over_a_kill(self) -> None:
        """So it is if the exchange is killed in the call, and goes on."""
        (self.folder / "settings").write_text(self.SETTINGS.replace("\n", "\ntimer T200 80000\n", 1))
        self.attach("--burst", "5", "--records", "records", lines=(1,), linked=(0,))
        user = self.user()
        self.waiting_call(user).close()
        self.kill()
        lines = ("--line", "1", "unix:line1", "--link", "0", "unix:link0")
        words = command("attach", "--burst", "5", *lines, "--records", "records", "--resume", "live.trace", "settings")
        with subprocess.Popen(words, cwd=self.folder, env=environment(), stderr=subprocess.PIPE, text=True) as self.work:
            self.errors = stream(self.work.stderr)
            self.until("attach: line 0: its data link listens")
            again, endpoint = self.user(), self.attached(1)
            again.link = user.link
            self.end_waiting_call(again, endpoint)
            (row,) = self.until_rows(1)
            self.assertTrue(all(re.match("20..-", row[name]) for name in TIMES), row)
            self.work.send_signal(signal.SIGTERM)
            self.assertEqual(self.work.wait(), 0)
        self.is_as_recorded(is_linked=True)


if __name__ == "__main__":
    support.main()
