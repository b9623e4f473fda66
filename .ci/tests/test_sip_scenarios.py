"""The scenarios of sipp, through tools/sip and the running exchange, where sipp is installed."""

from __future__ import annotations

import subprocess
import unittest
from collections.abc import Sequence
from concurrent.futures import ThreadPoolExecutor

import sipp_scenarios
import support
from sip_commands import Exchanged, needs, own_host
from sip_peers import HOST
from sipp_scenarios import PROXIED, SCENARIOS, Scenario
from support import EXAMPLES, needs_program, slow

PROXY = 5080  # the port of Kamailio, as in its configuration
WORKERS = 8  # scenarios at a time, which wait most of it
PATIENCE = ("-timeout", f"{2 * support.PATIENCE}s", "-timeout_error", "-recv_timeout", str(support.PATIENCE * 1_000))


@needs_program
@slow
@unittest.skipIf(needs("sipp"), "sipp is not installed")
class Sipp(Exchanged):
    """A scenario has a telephone that calls, and one with a number of its own that is called."""

    maxDiff = None

    def begin(self, scenarios: Sequence[Scenario], has_proxy: bool = False) -> None:
        """Starts the exchange and the gateway, whose users file has each telephone that is called."""
        sipp_scenarios.main(str(self.folder))
        self.host = own_host()
        called = [one.name for one in scenarios if one.called]
        self.numbers = {name: f"2{at:02}" for at, name in enumerate(called)}
        self.ports = {name: 12_000 + at for at, name in enumerate(called)}
        peers = [f"{self.numbers[name]} sip:{self.host}:{self.ports[name]}\n" for name in called]
        trunk = f"9* sip:{self.host}:{PROXY}\n" if has_proxy else ""
        self.target = f"{HOST}:{self.attach(sipp_scenarios.USERS + ''.join(peers) + trunk, sipp_scenarios.SETTINGS)}"
        if has_proxy:
            self.start_kamailio()

    def start_kamailio(self) -> None:
        """Starts the proxy of examples/phones in front of the gateway."""
        config = (EXAMPLES / "phones" / "kamailio.cfg").read_text()
        config = config.replace(f"{HOST}:{PROXY}", f"{self.host}:{PROXY}").replace("5060", self.target.partition(":")[2])
        (self.folder / "kamailio.cfg").write_text(config)
        words = ("-DD", "-E", "-f", "kamailio.cfg", "-Y", str(self.folder), "-P", str(self.folder / "pid"))
        self.start("kamailio", *words, "-m", "16", "-M", "4")
        self.until_it_responds(self.host, PROXY)

    def sipp(self, file: str, at: int, *words: str) -> subprocess.Popen[bytes]:
        errors = ("-trace_err", "-error_file", f"{file}.errors")
        return self.start("sipp", "-sf", file, "-i", self.host, "-p", str(at), "-m", "1", "-nostdin", *PATIENCE, *errors, *words)

    def outcome(self, one: Scenario) -> dict[str, str]:
        """Why the files of a scenario fail; nothing if they pass."""
        runs = {}
        if one.called:
            runs[f"{one.name}_called.xml"] = self.sipp(f"{one.name}_called.xml", self.ports[one.name])
        number = self.numbers.get(one.name, one.number)
        words = ("-s", number, "-auth_uri", one.digest_uri(number, self.target), self.target)
        runs[f"{one.name}.xml"] = self.sipp(f"{one.name}.xml", 11_000 + (*SCENARIOS, *PROXIED).index(one), *words)
        return {file: self.errors_of(file) for file, run in runs.items() if run.wait()}

    def errors_of(self, file: str) -> str:
        path = self.folder / f"{file}.errors"
        return path.read_text(errors="replace") if path.exists() else "it ended without an error"

    def assert_they_pass(self, scenarios: Sequence[Scenario]) -> None:
        with ThreadPoolExecutor(WORKERS) as pool:
            outcomes = list(pool.map(self.outcome, scenarios))
        for one, failures in zip(scenarios, outcomes):
            with self.subTest(scenario=one.name):
                self.assertEqual(failures, {})
        self.assertNotIn("secret", self.end())

    def test_scenarios(self) -> None:
        self.begin(SCENARIOS)
        self.assert_they_pass(SCENARIOS)

    @unittest.skipIf(needs("kamailio"), "Kamailio is not installed")
    def test_scenarios_through_a_proxy(self) -> None:
        """The telephones that call are before Kamailio, which is a peer of the gateway and stays in the routes."""
        self.begin(PROXIED, has_proxy=True)
        self.target = f"{self.host}:{PROXY}"
        self.assert_they_pass(PROXIED)

    @unittest.skipIf(needs("kamailio"), "Kamailio is not installed")
    def test_a_telephone_of_a_proxy_is_called(self) -> None:
        """901 registers at the proxy, and a telephone of the gateway calls it."""
        (one,) = (one for one in SCENARIOS if one.name == "call")
        self.begin([one], has_proxy=True)
        contact = f"sip:901@{self.host}:{self.ports[one.name]}"
        self.assertEqual(self.until_it_responds(self.host, PROXY, "REGISTER", contact).status, 200)
        self.numbers[one.name] = "901"
        self.assert_they_pass([one])


if __name__ == "__main__":
    support.main()
