"""live.h: both compilers accept it without a warning, and a small program in C receives the replies
calculated by hand."""
import os
import shutil
import subprocess
from pathlib import Path
from typing import Callable

import pytest
from conftest import ROOT

WARNINGS = ["-std=c99", "-O1", "-Wall", "-Wextra", "-Wpedantic", "-Wconversion", "-Werror",
            f"-I{ROOT}/stacks"]
SANITIZED = ["-g", "-fsanitize=address,undefined", "-fno-sanitize-recover"]
# 1 Mbit/s and 10 ms: 1000 bytes arrive at 18 ms. Of four packets, one is in service, two wait and the last
# finds no room.
BY_HAND = r"""
#define _POSIX_C_SOURCE 200809L
#include "live.h"
static const char *there = "udp 10.0.0.1 1000 10.0.1.1 80";
static void tell(live *l) {
  for (size_t i = 0; i < l->count; i++)
    printf("%llu %s %s\n", (unsigned long long)l->events[i].moment, (char *)l->events[i].payload,
           l->events[i].cause);
  live_clear(l);
}
static void wrong(live *l, int status) { printf("%d %s\n", status, live_error(l)); }
int main(int argc, char **argv) {
  uint64_t due = 0;
  unsigned long trips;
  live *l = live_open(argv[1]);
  if (argc < 4 || !l) return 9;
  l->transcript = fopen(argv[2], "w");
  l->report = fopen(argv[3], "w");
  if (live_experiment(l, "by-hand", 1, 10, 1000000)
      || live_command(l, "pipe 1 config bw 1Mbit/s delay 10 queue 2")
      || live_command(l, "add 100 pipe 1 ip from any to any")) { wrong(l, -1); return 8; }
  wrong(l, live_command(l, "pipe 2 config bw 10Mbps"));
  wrong(l, live_command(l, "delete 7"));
  wrong(l, live_command(l, "delete 8\n@0 end"));
  live_send(l, there, 1000, "a"); live_send(l, there, 1000, "b");
  live_send(l, there, 1000, "c"); live_send(l, there, 1000, "d");
  if (live_until_mine(l, LIVE_LATEST, 1)) return 7;
  printf("now %llu\n", (unsigned long long)l->now); tell(l);
  live_send(l, there, 39, "small");
  wrong(l, live_until(l, 26000001)); tell(l);
  live_send(l, there, 40, "e");
  if (live_next(l, &due)) return 6;
  printf("due %llu\n", (unsigned long long)due);
  if (live_until(l, 100000000)) return 5;
  tell(l);
  trips = l->round_trips;
  if (live_next(l, &due) || due != UINT64_MAX || l->round_trips != trips) return 3;
  wrong(l, live_until(l, 5));
  if (live_end(l)) return 4;
  wrong(l, live_send(l, there, 40, "late"));
  printf("over %d %s\n", l->is_over, l->counters);
  fclose(l->transcript); fclose(l->report);
  return live_close(l);
}
"""
TOLD = """-1 fault badword: @0 pipe 2 config bw 10Mbps
-1 refused 13: @0 delete 7
-1 no line of at most 512 bytes: delete 8
@0 end
now 18000001
0 d full
18000000 a 
-1 fault outofrange: @18000001 inject udp 10.0.0.1 1000 10.0.1.1 80 39
26000000 b 
due 26320001
34000000 c 
36320001 e 
-1 fault backwards: #> until @5
-1 the experiment is over: udp 10.0.0.1 1000 10.0.1.1 80
over 1 counters 5 4 0 0 0 0 0 1 0 0 0
"""
MANY = r"""
#define _POSIX_C_SOURCE 200809L
#include "live.h"
int main(int argc, char **argv) {
  live *l = live_open(argv[argc - 1]);
  if (!l) return 9;
  l->report = fopen("/dev/null", "w");
  if (live_experiment(l, "many", 1, 65535, 10000000) || live_command(l, "add 100 allow ip from any to any")
      || live_command(l, "trace 1")) { fprintf(stderr, "%s\n", live_error(l)); return 1; }
  for (int i = 0; i < 200000; i++)
    if (live_send(l, "udp 10.0.0.1 1 10.0.0.2 2", 40, l)
        || (i % 50000 == 49999 && live_until(l, l->now + 10))) return 2;
  printf("%lu\n", (unsigned long)l->count);
  fclose(l->report);
  return live_close(l) == 1 ? 0 : 3;
}
"""


def built(folder: Path, text: str, compiler: str, *more: str) -> Path:
    if shutil.which(compiler) is None:
        pytest.skip(f"{compiler} is missing (Debian: {compiler})")
    (folder / "it.c").write_text(text)
    subprocess.run([compiler, *WARNINGS, "-o", folder / "it", folder / "it.c", *more], check=True, timeout=60)
    return folder / "it"


def here() -> list[str]:
    """Returns the compiler's arguments for a session in the process itself."""
    named = os.environ.get("LIBDNLAB")
    if not named:
        pytest.skip("no library is named by LIBDNLAB (tools/library makes one)")
    prefix = Path(named).absolute().parents[1]
    return ["-DLIVE_LIBRARY", f"-I{prefix}/include", f"-L{prefix}/lib", "-ldnlab", f"-Wl,-rpath,{prefix}/lib"]


@pytest.mark.parametrize("engine", ["process", "library"])
@pytest.mark.parametrize("compiler", ["gcc", "clang"])
def test_by_hand(compiler: str, engine: str, program: str, alone: Callable[[bytes], bytes],
                 tmp_path: Path) -> None:
    words = here() if engine == "library" else []
    called = built(tmp_path, BY_HAND, compiler, *words, *(SANITIZED if compiler == "gcc" else []))
    done = subprocess.run([called, program, tmp_path / "scenario.txt", tmp_path / "report.txt"],
                          capture_output=True,
                          text=True, timeout=60, check=False)
    assert (done.stderr, done.stdout, done.returncode) == ("", TOLD, 0)
    assert alone((tmp_path / "scenario.txt").read_bytes()) == (tmp_path / "report.txt").read_bytes()


@pytest.mark.parametrize("engine", ["process", "library"])
def test_more_than_pipes_hold(engine: str, program: str, tmp_path: Path) -> None:
    """14 MB are sent in four exchanges, and 50 MB are received."""
    words = here() if engine == "library" else []
    done = subprocess.run([built(tmp_path, MANY, "gcc", *words), program], capture_output=True, text=True,
                          timeout=60, check=False)
    # With a budget of 65535, none of 50000 packets at the same time is dropped.
    assert (done.stdout, done.returncode) == ("200000\n", 0)


@pytest.mark.parametrize("called,how",
                         [("/no/such/program", "there is no such program"), ("/bin/false", "with status 1")])
def test_a_program_that_ends_is_said(called: str, how: str, tmp_path: Path) -> None:
    done = subprocess.run([built(tmp_path, MANY, "gcc"), called], capture_output=True, text=True, timeout=60,
                          check=False)
    assert (done.stderr, done.returncode) == (f"the program has ended: {how}\n", 1)
