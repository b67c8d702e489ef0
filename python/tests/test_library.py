"""The library in this process: the choice of the library, its refusals, and that its runs equal the
program's."""
import os
import pickle
from pathlib import Path

import pytest

import dnlab
from conftest import EXAMPLES
from dnlab import library
from dnlab.io.files import read_beside

NAMED = os.environ.get("LIBDNLAB", "")
there = pytest.mark.skipif(not NAMED, reason="no library is named by LIBDNLAB (tools/library makes one)")
FAULTY = "experiment a seed 0 budget 10\n@0 pipe 1 config bw 10Mbps\n@0 end\n"
ONE = EXAMPLES / "one_packet"


def test_a_library_that_is_not_there(monkeypatch: pytest.MonkeyPatch, tmp_path: Path) -> None:
    monkeypatch.setenv("LIBDNLAB", str(tmp_path / "none.so"))
    with pytest.raises(dnlab.ProgramError) as failed:
        library.version()
    assert failed.value.status == 2 and "LIBDNLAB" in failed.value.said
    monkeypatch.delenv("LIBDNLAB")
    monkeypatch.setattr("dnlab.library.PLACES", (tmp_path / "none.so",))
    with pytest.raises(dnlab.ProgramError) as failed:
        dnlab.run(FAULTY, engine="library")
    assert failed.value.status == 3 and "tools/library" in failed.value.said


def test_a_file_that_is_no_library(monkeypatch: pytest.MonkeyPatch, tmp_path: Path) -> None:
    (tmp_path / "it.so").write_text("no library")
    monkeypatch.setenv("LIBDNLAB", str(tmp_path / "it.so"))
    with pytest.raises(dnlab.ProgramError) as failed:
        library.check(b"")
    assert failed.value.status == 3 and "can't be used" in failed.value.said


@pytest.mark.parametrize("words", [{"workers": 2}, {"moves": 3}, {"dnlab": "it"}])
def test_words_that_do_not_go_together(words: dict[str, object]) -> None:
    with pytest.raises(ValueError, match="no workers"):
        dnlab.run(FAULTY, engine="library", **words)  # type: ignore[arg-type]
    with pytest.raises(ValueError, match="no program"):
        dnlab.live("it", engine="library")
    for call in lambda: dnlab.run(FAULTY, engine="thread"), lambda: dnlab.live(engine="thread"):
        with pytest.raises(ValueError, match="'thread'"):
            call()


def test_a_fault_passes_between_processes() -> None:
    fault = pickle.loads(pickle.dumps(library.FaultIn(3, "badword")))
    assert (fault.status, fault.said, fault.line, fault.cause) == (1, "line 3: badword", 3, "badword")


@there
def test_a_run_by_the_library(tmp_path: Path) -> None:
    report = dnlab.run(ONE / "scenario.txt", engine="library", out=tmp_path / "report.txt")
    untraced = (ONE / "expected.txt").read_text()
    # Tracing adds that the packet is made and arrives at pipe 1, which has no mask.
    added = (
        "0 make 0 plain udp 10.0.0.1 1000 10.0.0.2 2000 1000\n0 identify 1.0 "
        "00/00000000/00000000/0000/0000\n0 arrive 0 1.0\n")
    assert (tmp_path / "report.txt").read_text() == untraced.replace("0 ok 2\n", f"0 ok 2\n{added}")
    # 1000 bytes at 1 Mbit/s take 8 ms in service, and the delay is 10 ms.
    assert report["a"].packets().delay.tolist() == [18_000_000]
    kept = read_beside(tmp_path / "report.txt")
    assert (kept is not None and kept.command == (os.path.abspath(NAMED), "alone")
            and kept.version.startswith(f"libdnlab {dnlab.__version__} ("))


@there
def test_a_fault_is_said_as_by_the_program() -> None:
    said = []
    for engine in "process", "library":
        with pytest.raises(dnlab.ProgramError) as failed:
            dnlab.run(FAULTY, engine=engine)
        said.append((failed.value.status, failed.value.said))
    assert said[0] == said[1] and said[0][1].startswith("line 2: badword\n")


@there
def test_a_report_longer_than_the_first_room() -> None:
    text = ("experiment a seed 0 budget 9\n@0 train 1 udp 1.1.1.1 1 1.1.1.2 1 100 count 5000 gap "
            "1\n@1000000 end\n".encode())
    report = library.alone(text)
    # The only rule, the default one, denies each of 5000 packets.
    assert len(report) > 1 << 16 and report.count(b" drop ") == 5000 and report.count(b" denied\n") == 5000


@there
def test_a_limit_of_steps() -> None:
    # Two experiments, which may take 7 and 10^6 steps: the second text has no `steps`, so the default
    # applies.
    text = b"experiment a seed 0 budget 1 steps 7\n@0 end\nexperiment b seed 0 budget 1\n@0 end\n"
    assert library.alone(text, max_steps=1_000_007) == library.alone(text)
    for most, number in (1_000_006, 2), (7, 2), (6, 1), (0, 1):
        with pytest.raises(dnlab.ProgramError) as failed:
            library.alone(text, max_steps=most)
        assert failed.value.status == 3
        assert (failed.value.said == f"steps: experiment {number} of the text exceeds max_steps; "
                                     "max_steps=1000007 lets all run")
    with pytest.raises(library.FaultIn):
        library.alone(b"experiment\n", max_steps=0)


@there
def test_more_experiments_than_the_library_takes_at_once() -> None:
    text = "".join(f"experiment e{k} seed 0 budget 1\n@{k} end\n" for k in range(300))
    report = dnlab.run(text, engine="library")
    assert list(report) == [f"e{k}" for k in range(300)]
    with pytest.raises(dnlab.ProgramError) as failed:
        dnlab.run(text + "@5 end\n", engine="library")
    assert failed.value.said.startswith("line 601: afterend")


@there
def test_lines_of_a_session() -> None:
    with library.Talk() as talk:
        assert talk.take(b"#> next") == b"#< fault noexperiment\n"
        assert talk.take(b"experiment a seed 0 budget 9") == b"experiment a\n#< ok\n"
        assert talk.take(b"") == b""
        # The only rule, the default one, denies it.
        assert (talk.take(
            b"@5 inject udp 1.1.1.1 1 1.1.1.2 2 100") == b"5 ok 0\n5 drop 0 plain denied\n#< packet 0\n")
        with pytest.raises(library.FaultIn, match="line 5: noend"):
            talk.close()
    assert talk.has_ended
    with pytest.raises(dnlab.ProgramError, match="closed"):
        talk.take(b"")
    with pytest.raises(ZeroDivisionError), library.Talk() as talk:
        print(1 // 0)
    assert talk.has_ended


@there
def test_what_is_said_is_longer_than_the_first_room() -> None:
    talk = library.Talk()
    talk.take(b"experiment a seed 0 budget 9")
    talk.take(b"@0 train 1 udp 1.1.1.1 1 1.1.1.2 1 100 count 5000 gap 1")
    said = talk.take(b"@1000000 end")
    assert len(said) > 1 << 16 and said.count(b" denied\n") == 5000 and said.endswith(b"\n#< over 1000000\n")
    talk.close()
    talk.close()


@there
def test_a_session_here_is_one_there(program: str) -> None:
    """Both have the same replies, transcript, report and faults."""
    kept = []
    for words in {"dnlab": program}, {"engine": "library"}:
        with dnlab.live(**words) as session:
            links = [session.experiment(name, seed=1, budget=10) for name in "ab"]
            events = []
            for link in links:
                link.command("pipe 1 config bw 1Mbit/s delay 10 queue 2")
                link.command("add 100 pipe 1 ip from any to any")
                for _ in range(4):
                    link.send(("10.0.0.1", 1), ("10.0.0.2", 2), 1000)
                events += [(it.moment, it.cause, it.number) for it in link.until(10**8)]
            with pytest.raises(dnlab.LineRejectedError) as fault:
                links[0].command("pipe 2 config bw 10Mbps")
            with pytest.raises(dnlab.CommandRefusedError) as refused:
                links[1].command("delete 7")
            for link in links:
                link.end()
            kept.append((events, str(fault.value), str(refused.value), session.transcript(),
                         session.report()))
        with pytest.raises(dnlab.ProgramError, match="closed"):
            session.experiment("c")
    assert kept[0] == kept[1] and "10Mbit/s" in kept[0][1]


@there
def test_a_session_here_that_was_interrupted(monkeypatch: pytest.MonkeyPatch) -> None:
    with dnlab.live(engine="library") as session:
        link = session.experiment("a")
        with monkeypatch.context() as patch, pytest.raises(KeyboardInterrupt):
            patch.setattr(link, "answered", lambda *_: (_ for _ in ()).throw(KeyboardInterrupt))
            link.until(5)
        with pytest.raises(dnlab.ProgramError, match="interrupted"):
            link.until(6)
        session.transport.kill()
    assert session.transport.has_ended
