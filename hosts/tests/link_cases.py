"""Tests of the link: captures and time stamps against the report, changes, and the wall clock."""

import os
import pathlib
import shutil
import signal
import subprocess
import time

import compare_captures as compare
import guest
from guest import Host, Process, Run
from room import PYTHON, SECOND, TESTS, Missing, Room


HOSTS = TESTS.parent


def need_wall() -> None:
    """Raises Missing unless network namespaces and TUN devices can be made."""
    if not os.access("/dev/net/tun", os.R_OK | os.W_OK) or os.geteuid():
        raise Missing("root and /dev/net/tun")


class LinkCases(Room):
    """The tests, each a method `check_NAME`; a failed one raises AssertionError."""

    def captures(self, run: Run) -> dict[str, compare.Packets]:
        """Returns the captures of client and server, by address."""
        names = {"10.0.0.1": "client", "10.0.1.1": "server"}
        return {
            address: guest.capture(run.folder / f"hosts/{name}/eth0.pcap") for address, name in names.items()
        }

    def differences(self, run: Run) -> list[str]:
        """Returns the differences between the captures of a run and its transcript and report."""
        return compare.differences(run.text("transcript.txt"), run.text("report.txt"), self.captures(run))

    def check_stamps(self) -> None:
        """The receiver's kernel stamps each packet with exactly the time in the report."""
        receive = Process([PYTHON, str(TESTS / "stamps.py"), "receive"])
        send = Process([PYTHON, str(TESTS / "stamps.py"), "send", "1"], SECOND)
        run = guest.run(
            self.kernel,
            self.folder / "stamps",
            {"client": Host("10.0.0.1", [send]), "server": Host("10.0.1.1", [receive])},
        )
        stamps = [int(line) for line in run.out("server").split()]
        times = [time for time, _ in compare.deliveries(run.text("report.txt"))]
        offsets = {stamp - time for stamp, time in zip(stamps, times, strict=True)}
        assert len(stamps) > 500 and offsets == {guest.START_DATE + guest.ORIGIN}, (len(stamps), offsets)

    def check_captures(self) -> None:
        """Captures agree with transcript and report, packet by packet; wrong ones are refused."""
        run = self.iperf("captures")
        captures = self.captures(run)
        texts = run.text("transcript.txt"), run.text("report.txt")
        wrong = compare.differences(*texts, captures)
        assert not wrong and len(captures["10.0.1.1"]) > 3000, wrong[:3]
        client, server = captures["10.0.0.1"], captures["10.0.1.1"]
        late = [*server[:9], (server[9][0] + 1, server[9][1]), *server[10:]]
        flipped = [*server[:9], (server[9][0], server[9][1][:-1] + b"\1"), *server[10:]]
        for mutant in (
            (client, late),
            (client, server[:-1]),
            (client[:9] + client[10:], server),
            (server, client),
            (client, flipped),
        ):
            assert compare.differences(*texts, dict(zip(captures, mutant, strict=True)))

    def check_alone(self) -> None:
        """`dnlab alone` writes the same report for the transcript."""
        if not shutil.which("rt") and "DNLAB" not in os.environ:
            raise Missing("rt, or the variable DNLAB")
        program = os.environ.get("DNLAB", str(TESTS.parents[1] / "dnlab"))
        run = self.iperf("alone")
        with (run.folder / "transcript.txt").open("rb") as transcript:
            again = subprocess.run([program, "alone"], stdin=transcript, stdout=subprocess.PIPE, check=True)
        assert again.stdout == (run.folder / "report.txt").read_bytes()

    def check_others(self) -> None:
        """Hosts other than the first can talk to each other, as the rules allow."""
        ping = Process(["sh", "-c", "ping -c 2 -i 0.2 10.0.2.1; ip netns exec c ip -o address show eth0"])
        hosts = {"a": Host("10.0.0.1"), "b": Host("10.0.1.1", [ping]), "c": Host("10.0.2.1")}
        network = ["pipe 1 config delay 5", "add 100 pipe 1 ip from any to any"]
        run = guest.run(self.kernel, self.folder / "others", hosts, network)
        assert " 0% packet loss" in run.out("b") and "= 10.0" in run.out("b"), run.out("b")
        assert "inet 10.0.2.1/32" in run.out("b"), run.out("b")
        assert not guest.capture(run.folder / "hosts/a/eth0.pcap")

    def check_changes(self) -> None:
        """A network line with a time, and a write to /proc/dnlab, change the link."""
        script = (
            "ping -qc1 10.0.1.1; sleep 1; ping -qc1 10.0.1.1; "
            "echo pipe 1 config delay 70 > /proc/dnlab; ping -qc1 10.0.1.1; "
            "echo nonsense > /proc/dnlab || true"
        )
        run = self.one(
            "changes", ["sh", "-c", script], network=[*guest.LINKS, "@1000000000 pipe 1 config delay 50"]
        )
        assert run.counts["refused"] == "0", run.counts
        means = [float(line.split("/")[4]) for line in run.out().splitlines() if line.startswith("rtt")]
        assert [int(mean) for mean in means] == [40, 70, 90], means
        run = self.one("refused", ["true"], network=["pipe 1 config speed 10"])
        assert run.counts["refused"] == "1" and "pipe 1 config speed 10" in run.console, run.console

    def check_spent(self) -> None:
        """The run ends at once when the experiment's steps run out, and reports the time."""
        ping = Process(["ping", "-i", "0.01", "10.0.1.1"])
        run = guest.run(
            self.kernel,
            self.folder / "spent",
            {"client": Host("10.0.0.1", [ping]), "server": Host("10.0.1.1")},
            steps=2000,
        )
        assert run.counts["spent"] == "1" and 0 < int(run.counts["spent_at"]) < 10 * SECOND, run.counts
        assert run.exits["client 0"].split()[0] == "running", run.exits
        assert (
            abs(int(run.exits["client 0"].split()[1]) - int(run.counts["spent_at"])) < SECOND // 100
        ), run.exits

    def check_wall(self) -> None:
        """With the wall clock iperf3 works, captures agree with the report, and lateness is counted."""
        need_wall()
        run = self.iperf("wall", wall=True)
        wrong = self.differences(run)
        assert not wrong and len(self.captures(run)["10.0.1.1"]) > 3000, wrong[:3]
        late = [int(run.counts[f"late_{name}_ns"]) for name in ("p50", "p99", "max")]
        assert 0 < late[0] <= late[1] <= late[2], late

    def mutant(self, name: str, file: str, old: str, new: str) -> pathlib.Path:
        """Compiles a link process with one change. Returns the folder with it."""
        assert self.prefix
        sources = self.folder / f"{name}.sources"
        shutil.copytree(HOSTS / "link", sources / "link", dirs_exist_ok=True)
        shutil.copytree(HOSTS / "start", sources / "start", dirs_exist_ok=True)
        text = (sources / "link" / file).read_text(encoding="utf-8")
        assert text.count(old) == 1, (file, old)
        (sources / "link" / file).write_text(text.replace(old, new), encoding="utf-8")
        names = [*(sources / "link").glob("*.c"), *(sources / "start").glob("*.c")]
        files = [str(path) for path in names if path.name != "start.c"]
        library = [f"-I{self.prefix}/include", f"{self.prefix}/lib/libdnlab.a"]
        subprocess.run(
            ["cc", "-std=gnu11", "-O1", *files, *library, "-o", str(sources / "link/link")], check=True
        )
        return sources / "link"

    def check_mutants(self) -> None:
        """A link that is 1 ns late, loses a packet or delivers to the wrong host is found."""
        need_wall()
        if not self.prefix:
            raise Missing("--prefix PREFIX")
        deliver = "	if (!events[i].is_drop)"
        for name, file, old, new, is_found in (
            ("same", "wall.c", "late_max_ns %llu", "late_max_ns  %llu", False),
            (
                "late",
                "session.c",
                "events[event_count].time = time;",
                "events[event_count].time = time + 1;",
                True,
            ),
            ("lost", "wall.c", deliver, "	if (!events[i].is_drop && ++to_nobody % 100)", True),
            ("host", "wall.c", "dn_host_of(packet->data + 16)", "dn_host_of(packet->data + 12)", True),
            (
                "byte",
                "wall.c",
                "	dn_capture(host, due",
                "	packet->data[39] ^= 1;\n	dn_capture(host, due",
                True,
            ),
        ):
            client = Process(["ping", "-c", "300", "-i", "0.002", "10.0.1.1"], SECOND // 10)
            hosts = {"client": Host("10.0.0.1", [client]), "server": Host("10.0.1.1")}
            made = self.mutant(name, file, old, new)
            run = guest.run(made, self.folder / name, hosts, wall=True, end=2 * SECOND)
            assert bool(self.differences(run)) == is_found, name

    def check_wall_interrupted(self) -> None:
        """SIGINT ends a run with the wall clock, and leaves no process and a complete transcript."""
        need_wall()
        folder = self.folder / "interrupted"
        hosts = {"client": Host("10.0.0.1", [Process(["sh", "-c", "sleep 7654.3 & sleep 7654.3"])])}
        guest.write(folder, hosts, ["pipe 1 config delay 5"], 10**7, 10**18)
        with subprocess.Popen(
            [str(self.kernel / "link"), "guest/link.conf", "guest/plan"], cwd=folder
        ) as link:
            time.sleep(1)
            link.send_signal(signal.SIGINT)
            assert link.wait(2) == 130
        assert not guest.left_in(folder, 2)
        assert (folder / "transcript.txt").read_text().splitlines()[-1].endswith(" end")
