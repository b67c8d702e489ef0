"""Code that the tests of hosts share: a folder for runs, and runs of one command or of iperf3."""

import pathlib
import shutil
import subprocess

import guest
from guest import Host, Process, Run

TESTS = pathlib.Path(__file__).resolve().parent
SECOND = 10**9
PYTHON = "/usr/bin/python3"


class Missing(Exception):
    """A test needs a program that is not installed."""


def need(*programs: str) -> None:
    """Raises Missing unless all programs are installed."""
    lacking = [name for name in programs if not shutil.which(name)]
    if lacking:
        raise Missing(", ".join(lacking))


def same(first: Run, second: Run, paths: list[str]) -> None:
    """Fails at the first file that differs between two runs."""
    for path in paths:
        one, other = ((run.folder / path).read_bytes() for run in (first, second))
        assert one == other, f"{path} differs: {first.folder} {second.folder}"


class Room:
    """The built kernel, and the folder for runs."""

    def __init__(
        self, kernel: pathlib.Path, folder: pathlib.Path, prefix: pathlib.Path | None = None
    ) -> None:
        self.kernel, self.folder, self.prefix = kernel, folder, prefix

    def program(self, name: str) -> str:
        """Compiles a program of hosts/tests. Returns its path."""
        made = self.folder / f"{name}.program"
        if not made.exists():
            subprocess.run(
                [
                    "cc",
                    "-std=gnu11",
                    "-O2",
                    "-Wall",
                    "-Wextra",
                    "-Werror",
                    "-mavx",
                    "-pthread",
                    str(TESTS / f"{name}.c"),
                    "-o",
                    str(made),
                ],
                check=True,
            )
        return str(made)

    def one(self, name: str, command: list[str], **more: object) -> Run:
        """Runs a command on the client, with an idle server. The command must exit with 0."""
        user = str(more.pop("user", ""))
        hosts = {"client": Host("10.0.0.1", [Process(command, user=user)]), "server": Host("10.0.1.1")}
        run = guest.run(self.kernel, self.folder / name, hosts, **more)  # type: ignore[arg-type]
        assert run.exits.get("client 0", "").startswith("exited 0 "), (
            run.exits,
            run.console[-300:],
            run.out(),
        )
        return run

    def iperf(self, name: str, seconds: int = 3, **more: object) -> Run:
        """Runs iperf3 from the client to the server, where it must succeed."""
        need("iperf3")
        client = Process(
            ["iperf3", "-c", "10.0.1.1", "-t", str(seconds), "-J", "--cport", "40000"], SECOND // 10
        )
        hosts = {
            "client": Host("10.0.0.1", [client]),
            "server": Host("10.0.1.1", [Process(["iperf3", "-s", "-1"])]),
        }
        run = guest.run(self.kernel, self.folder / name, hosts, **more)  # type: ignore[arg-type]
        assert [exit.rsplit(" ", 1)[0] for exit in run.exits.values()] == ["exited 0"] * 2, (
            run.exits,
            run.console,
        )
        return run
