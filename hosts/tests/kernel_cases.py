"""Tests of the kernel: registers, processor, waits, files, features, and two runs compared."""

import shutil
import subprocess
import time

import guest
from guest import Host, Process
from room import PYTHON, SECOND, TESTS, Missing, Room, need, same


class KernelCases(Room):
    """The tests, each a method `check_NAME`; a failed one raises AssertionError."""

    def check_registers(self) -> None:
        """Vector registers keep their values across system calls, threads, forks and signals."""
        run = self.one("registers", [self.program("registers")])
        parts = sorted(run.out().splitlines())
        assert parts == sorted(
            f"{part}: wrong 0" for part in ("one task", "child", "parent", "threads", "signals")
        ), parts

    def check_processor(self) -> None:
        """RDTSC counts simulated ns, and CPUID offers no random numbers."""
        run = self.one("processor", [self.program("processor")])
        tsc, rdrand, rdseed = (line.split() for line in run.out().splitlines())
        assert SECOND <= int(tsc[2]) < SECOND + 10_000 and int(tsc[3]) >= 1_000_000, tsc
        hidden = run.counts["cpuid_hidden"] == "1"
        assert not hidden or (rdrand, rdseed) == (
            ["rdrand", "0", "processor", "0"],
            ["rdseed", "0"],
        ), run.out()

    def check_spin(self) -> None:
        """A wait in user space for a thread that sleeps ends, at the same time twice, and is counted."""
        runs = [self.one(name, [self.program("spin")], limit=300) for name in ("spin", "spin-again")]
        assert 200 <= int(runs[0].out()) < 220, runs[0].out()
        assert int(runs[0].counts["spins"]) > 0 and runs[0].counts["spins_unsettled"] == "0", runs[0].counts
        same(runs[0], runs[1], ["guest/exits", "guest/counts", "hosts/client/0.out"])

    def check_twice(self) -> None:
        """Two runs in different seconds, in folders at different depths, are the same byte for byte."""
        runs = []
        for name in ("a", "folder-with-a-longer-name/b"):
            runs.append(self.one(name, ["sh", str(TESTS / "leaks.sh")]))
            time.sleep(1.1)
        same(
            runs[0],
            runs[1],
            [
                "transcript.txt",
                "report.txt",
                "hosts/client/0.out",
                "hosts/client/0.err",
                "hosts/client/eth0.pcap",
                "hosts/server/eth0.pcap",
                "guest/exits",
                "guest/counts",
            ],
        )
        assert "rtt min/avg/max/mdev = 40.13" in runs[0].out(), runs[0].out()[-200:]

    def check_iperf_twice(self) -> None:
        """iperf3 has the same transcript twice, and its results fit the link."""
        runs = [self.iperf(name) for name in ("first", "the-second")]
        same(runs[0], runs[1], ["transcript.txt", "report.txt", "hosts/client/eth0.pcap", "guest/exits"])
        assert int(runs[0].counts["late"]) == 0, runs[0].counts

    def check_plan(self) -> None:
        """Starts, signals, statuses and set-up follow the plan, to the nanosecond."""
        date = ["sh", "-c", "exec date +%s.%N"]
        hosts = {
            "client": Host(
                "10.0.0.1",
                [
                    Process(date, 1_234_567_890),
                    Process(["sleep", "100"], expects="signaled 15", stop="2000000000 15"),
                    Process(["sh", "-c", "exit 7"], 3 * SECOND, expects="exited 7"),
                    Process(["sleep", "1000"], expects="running"),
                    Process(["no-such-program"], expects="exited 127"),
                    Process(["printf", "%s|", "a b", "", "line\nfeed", "\\n"]),
                ],
                ["sysctl net.ipv4.tcp_congestion_control bbr", "setup tc qdisc add dev eth0 root fq"],
            )
        }
        run = guest.run(self.kernel, self.folder / "plan", hosts, [])
        words = [run.exits[f"client {index}"].split() for index in range(6)]
        assert [word[:2] for word in words[:3]] == [
            ["exited", "0"],
            ["signaled", "15"],
            ["exited", "7"],
        ], words
        assert words[3][0] == "running" and words[4][:2] == ["exited", "127"], words
        assert 0 <= int(words[1][2]) - 2 * SECOND <= 2000, words
        assert run.out(index=5) == "a b||line\nfeed|\\n|", run.out(index=5)
        seconds, ns = run.out().strip().split(".")
        started = int(seconds) * SECOND + int(ns) - guest.START_DATE - guest.ORIGIN
        assert 1_234_567_890 <= started < 1_234_567_890 + 500_000, started

    def check_failures(self) -> None:
        """After a wrong plan, a failed set-up or a wrong link.conf, guest/failed has the cause, and there are
        no exits."""
        for name, lines, cause in (
            ("setup", ["setup exit 3"], "setup failed (status 3)"),
            ("sysctl", ["sysctl net.no.such 1"], "No such file"),
            ("plan", ["colour blue"], "line 3: not understood"),
        ):
            run = guest.run(self.kernel, self.folder / name, {"client": Host("10.0.0.1", [], lines)}, [])
            assert not run.exits and cause in run.text("guest/failed"), (name, run.console)
        run = guest.run(self.kernel, self.folder / "conf", {"client": Host("10.0.0.256")}, [])
        assert not run.exits and "link.conf, line 5" in run.console, run.console

    def check_files(self) -> None:
        """The output folder belongs to the guest's users, and nothing else of the host can be written."""
        mark = self.folder / "mark"
        mark.write_text("before")
        script = (
            f"mkdir -m 700 own && echo x > own/file && chmod 400 own/file && cat own/file && ls -ld own; "
            f"echo after > {mark}; test -w / && exit 1; exit 0"
        )
        run = self.one("files", ["sh", "-c", script], user="nobody")
        assert "drwx------ 1 nobody nogroup" in run.out() and run.text("own/file") == "x\n", run.out()
        script = (
            f"echo after > {mark}; cat {mark}; rm {mark}; "
            f"mount -t hostfs none /mnt -o {self.folder} && exit 1; exit 0"
        )
        run = self.one("as-root", ["sh", "-c", script])
        assert run.out() == "after\n" and mark.read_text() == "before", run.out()

    def check_root(self) -> None:
        """A folder can be the root of a guest, and the machine's own files are not in it."""
        need("busybox")
        root = self.folder / "rootfs"
        for name in ("bin", "etc"):
            (root / name).mkdir(parents=True, exist_ok=True)
        shutil.copy(shutil.which("busybox") or "", root / "bin/sh")
        if subprocess.run(["ldd", root / "bin/sh"], capture_output=True, check=False).returncode == 0:
            raise Missing("busybox-static")
        run = self.one("other-root", ["/bin/sh", "-c", "echo /*; cat /etc/hostname"], root=str(root))
        assert run.out() == "/bin /dev /etc /proc /run /sys\nclient\n", run.out()

    def check_features(self) -> None:
        """The kernel has what services and their tests expect."""
        need("nft", "iptables", "tc")
        run = self.one("features", [PYTHON, str(TESTS / "features.py")])
        lacking = [line for line in run.out().splitlines() if not line.endswith(": ok")]
        assert not lacking and len(run.out().splitlines()) > 50, lacking

    def check_memory(self) -> None:
        """A guest with too little memory reports this, and names the process that it kills."""
        eat = Process(
            [PYTHON, "-c", "x = []\nwhile True: x.append(bytes([1]) * (1 << 20))"], expects="signaled 9"
        )
        run = guest.run(
            self.kernel, self.folder / "memory", {"client": Host("10.0.0.1", [eat])}, [], mem="128M"
        )
        assert run.exits.get("client 0", "").startswith("signaled 9"), (run.exits, run.console[-500:])
        assert "Out of memory: Killed process" in run.console, run.console[-500:]

    def check_postgresql(self) -> None:
        """PostgreSQL runs as nobody in the output folder; CREATE INDEX waits in user space for workers."""
        need("initdb", "pgbench", "pg_ctl")
        run = self.one("postgresql", ["sh", str(TESTS / "postgresql.sh")], user="nobody")
        assert int(run.counts["spins"]) > 0 and run.counts["spins_unsettled"] == "0", run.counts
        assert "CREATE INDEX" in run.out() and "processed: 20/20" in run.out(), run.out()

    def check_killed(self) -> None:
        """A kernel that is killed leaves no process."""
        hosts = {
            "client": Host(
                "10.0.0.1", [Process(["sleep", "1e9"]), Process([PYTHON, "-c", "while True: pass"])]
            )
        }
        try:
            guest.run(self.kernel, self.folder / "killed", hosts, [], end=10**18, limit=1.5)
        except subprocess.TimeoutExpired:
            pass
        assert not guest.left_in(self.folder / "killed")
