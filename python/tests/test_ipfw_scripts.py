"""Scripts for from-ipfw: they are read as sh(1) reads them, and none of them affects the machine.

What a script means is compared with the real `sh`, which runs the texts of this file with functions in place
of ipfw and sleep. The attacks are tried as root and as nobody, in a process that ends when it starts a
program, opens a socket, or opens a file of the user's.
"""
import os
import shutil
import subprocess
import tempfile
from pathlib import Path
from typing import Iterator

import pytest
from conftest import ROOT, tool
from hypothesis import given
from hypothesis import strategies as st

from dnlab.errors import ParseError
from dnlab.io.shell_words import words_of

STAND_IN = (
    'shown() { for word do printf "%s\\037" "$word"; done; printf "\\036"; }\nipfw() { shown ipfw "$@"; '
    '}\nsleep() { shown sleep "$@"; }\n')
SCRIPTS = [
    "a='x y' b=\"$a z\"; ipfw add $a \"$b\" '$a' \\$a x\"$a\"y x$a\n",
    "cmd='ipfw -q add'\n$cmd 10 allow ip from any to \"table(1)\" # comment\n$cmd 20 deny ip from "
    "any to any#no\n",
    "for i in 1 2 3; do for j in a b; do [ $i = 2 ] && continue; ipfw pipe $i $j; done; [ $i -ge 2 ] && "
    "break; done; ipfw end\n",
    "n=1\nwhile [ $n -le 3 ]\ndo\n ipfw add $((n*100 + -7 % 4)) $((-7 / 2)) $((n<<2|1))\n n=$((n+1))\ndone\n",
    "until [ $# -eq 0 ]; do shift; done; ipfw ${1:-none} ${x:-} \"${x:-}\" ${x:=set} $x "
    "${x:+there} \"$@\" $#\n",
    "while read -r ip down rest; do ipfw $ip ${down}Kbit/s \"$rest\"; done <<X\n10.0.0.1 20 a  b\n "
    "10.0.0.2   7\n\nX\n",
    "v=1; while read a; do ipfw \"$a\"; done <<-'X'\n\tno $v\n\tX\n",
    "case abc in a) ipfw 1;; b|a*c) ipfw 2; ipfw 3;; *) ipfw 4;; esac\ncase $((1+1)) in (2) ipfw 5 ;; esac\n",
    "if [ -z \"\" ] && ! false; then ipfw 1; elif true; then ipfw 2; else ipfw 3; fi\nif false; then ipfw 4; "
    "else ipfw 5; fi\n",
    "add() { ipfw add \"$@\"; [ $# -gt 1 ] || return 0; ipfw last $2; }\nadd 'a b'\nadd c d\n",
    "false || ipfw 1 && ipfw 2\ntrue || ipfw 3\nfalse && ipfw 4\n{ ipfw 5; } >/dev/null 2>&1 </dev/null || "
    "ipfw 6\nipfw 7 \\\n  8\n",
    "for i in $(seq 1 3) `seq 5 -2 1` $(echo a b); do ipfw $i; sleep 1; done; ipfw \"$(echo 'a  b')\" $?\n",
    "x=' a b '; ipfw c$x'd' \"$x\"e $x$x; export y=1 z; ipfw $y \"$z\"\nexit 0\nipfw never\n",
    "set -e; [ 1 -lt 2 ]; [ a != b ] && ipfw 1; if [ -n '' ]; then ipfw 2; fi; ipfw 3\n",
]


def by_shell(text: str) -> list[tuple[str, ...]]:
    done = subprocess.run(["sh", "-c", STAND_IN + text], capture_output=True, text=True, timeout=60,
                          check=True)
    return [tuple(line.split("\037")[:-1]) for line in done.stdout.split("\036")[:-1]]


@pytest.mark.parametrize("text", SCRIPTS)
def test_as_sh_reads_it(text: str) -> None:
    text = text.replace(" >/dev/null 2>&1", "")
    assert words_of(text) == [tuple(piece for word in words for piece in word.split())
                              for words in by_shell(text)]


@given(st.lists(st.sampled_from(["'", '"', "\\", " ", "a", "$x", "${x}", "$((1+2))", "=", "#", "\t", "b'c'",
                                 '"$x"', "${y:-d e}"]), max_size=8))
def test_words_as_sh_cuts_them(pieces: list[str]) -> None:
    """The result is sh's words or a refusal. sh refuses an unclosed quotation."""
    text = f"x='1  2'; ipfw k{''.join(pieces)}\n"
    try:
        mine = words_of(text)
    except ParseError:
        return
    assert mine == [tuple(piece for word in words for piece in word.split()) for words in by_shell(text)]


@pytest.mark.parametrize("text, line", [
    ("ipfw flush\npython3 -c pass\n", 2), ("ipfw add $gone\n", 1), ("\nexit 4\n", 2),
    ("set -e\n[ a = b ]\n", 2), ("ipfw 'a\n", 1),
    ("if true; then\nipfw flush\n", 2), ("case x in x) ipfw 1\n", 1), ("while read a <<X\n", 1),
    ("ipfw $((1/0))\n", 1),
    ("ipfw ${x%y}\n", 1), ("[ -f /etc/passwd ] && ipfw flush\n", 1),
    ("for i in 1; do\n\n  foo $i\ndone\n", 3), ("trap 'ipfw flush' EXIT\n", 1),
])
def test_what_isnt_understood(text: str, line: int) -> None:
    with pytest.raises(ParseError) as refused:
        words_of(text)
    assert refused.value.line == line


WATCHED = """
import os, sys, resource
resource.setrlimit(resource.RLIMIT_AS, (2**30, 2**30))
sys.dont_write_bytecode = True
sys.path.insert(0, sys.argv[1])
home = sys.argv[2]
import dnlab.cli.ipfw
from dnlab.__main__ import main
def watch(event, words):
    opens = event == "open" and (str(words[0]).startswith(home) and words[0] != home + "/script.sh"
                                 or words[2] & (os.O_WRONLY | os.O_RDWR))
    runs = event in ("os.exec", "os.fork", "os.posix_spawn", "os.system")
    if opens or runs or event.split(".")[0] in ("subprocess", "socket", "pty"):
        os.write(2, f"BROKEN OUT: {event} {words}".encode())
        os._exit(99)
sys.addaudithook(watch)
sys.exit(main(["from-ipfw", home + "/script.sh", "--lenient", "--all"]))
"""
ATTACKS = [
    "echo x > {home}/made", "printf x >> {home}/made", "cat {home}/secret",
    "ipfw add 1 allow ip from any to any // $(cat {home}/secret)",
    ". {home}/secret", "while read a; do ipfw add 1 count ip from any to any // $a; done < {home}/secret",
    "ipfw {home}/secret",
    "ipfw -p cpp {home}/secret", "/bin/mount -o remount,bind,rw /; touch {home}/made",
    "exec /bin/sh -c 'touch {home}/made'",
    "eval 'touch {home}/made'", "x=`touch {home}/made`", "python3 -c 'open(\"{home}/made\", \"w\")'",
    "command touch {home}/made",
    "( touch {home}/made )", "touch {home}/made &", "ipfw list | tee {home}/made", "{home}/ipfw flush",
    "PATH={home} sysctl x; evil",
    "unshare -r touch {home}/made", "nc -U {home}/agent", "trap 'touch {home}/made' EXIT; ipfw flush",
    "/bin/cat /dev/zero >&9",
    "while :; do ipfw flush; done", "f() {{ f; f; }}; f", "x=aaaaaaaa; while :; do x=$x$x; done",
    "for i in $(seq 1 999999999999); do :; done",
    "ipfw $((1 << 4611686018427387904)) $((9**9**9**9))", "ipfw $((" + "(" * 90 + "1" + ")" * 90 + "))",
    "{{ " * 9000, "ipfw ${{a:-" * 9000,
    "$(" * 9000, "ipfw add 1 count ip from any to any // \x1b]0;x\x07", "ipfw " + "a" * 300000,
]


@pytest.fixture
def home() -> Iterator[Path]:
    """Returns a folder that everybody may write to, with a secret, a program and the socket of an agent."""
    import socket
    with tempfile.TemporaryDirectory() as name:
        folder = Path(name)
        folder.chmod(0o777)
        (folder / "secret").write_text("add 7 allow ip from 6.6.6.6 to any\n")
        (folder / "ipfw").write_text(f"#!/bin/sh\ntouch {folder}/made\n")
        (folder / "ipfw").chmod(0o755)
        with socket.socket(socket.AF_UNIX) as agent:
            agent.bind(str(folder / "agent"))
            agent.listen()
            agent.setblocking(False)
            yield folder
            with pytest.raises(BlockingIOError):
                agent.accept()


@pytest.mark.parametrize("who", ["caller", "nobody"])
@pytest.mark.parametrize("attack", ATTACKS, ids=range(len(ATTACKS)))
def test_no_way_out(attack: str, who: str, home: Path) -> None:
    """A script starts nothing, opens only itself, and ends within its limits of time, memory and output."""
    if who == "nobody" and os.getuid() != 0:
        pytest.skip("only root can become nobody")
    (home / "script.sh").write_text("#!/bin/sh\n" + attack.format(home=home) + "\n")
    nobody = {"user": 65534, "group": 65534, "extra_groups": []} if who == "nobody" else {}
    python = shutil.which("python3", path="/usr/bin") or "python3"
    done = subprocess.run([python, "-c", WATCHED, str(ROOT / "python"), str(home)], capture_output=True,
                          timeout=30, check=False, cwd="/", **nobody)  # type: ignore[call-overload]
    said = done.stdout + done.stderr
    assert done.returncode in (0, 2) and b"BROKEN OUT" not in said and b"Traceback" not in said, said[-800:]
    assert b"6.6.6.6" not in said and not (home / "made").exists()
    assert len(said) < 2**20 and not set(said) & (set(range(32)) - set(b"\n\t"))


def test_the_line_is_said(tmp_path: Path) -> None:
    script = tmp_path / "script.sh"
    script.write_text("#!/bin/sh\nipfw flush\ncurl http://localhost/rules\n")
    status, said, told = tool("from-ipfw", script)
    assert (status, said) == (2, "") and "line 3: `curl` isn't executed" in told and "`ipfw list`" in told
