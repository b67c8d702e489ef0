"""Columns that are made in the usual order without a look-up: what is out of order gets the same values."""
import struct
from pathlib import Path

import numpy as np
import pytest

import dnlab
from dnlab.analysis.packets import DELIVERED, Packets
from dnlab.analysis.results import pipes_named
from dnlab.io.rows import DATA, Ints

# The flow, the first byte and the time of delivery (-1: dropped) of each segment in the order of creation,
# whether it was sent before, and whether its data is new when it comes.
SEGMENTS = [(1, 0, 10, False, True), (2, 0, 12, False, True), (1, 1460, -1, False, False),
            (1, 4380, 40, False, True), (2, 1460, 60, False, False), (1, 2920, 30, False, True),
            (1, 1460, 50, True, True), (2, 1460, 55, True, True), (1, 2920, 70, True, False),
            (2, 0, -1, True, False)]


@pytest.mark.parametrize("flows", [(1,), (2,), (1, 2)])
def test_segments_out_of_order(flows: tuple[int, ...]) -> None:
    """Segments that are below others without having been sent before are no retransmissions."""
    segments = [one for one in SEGMENTS if one[0] in flows]
    flow, number, ended = (np.array(column, dtype=np.int64) for column in list(zip(*segments))[:3])
    nothing: Ints = np.zeros(len(segments), dtype=np.int64)
    table = Packets([], nothing, ended, np.where(ended >= 0, DELIVERED, 4).astype(np.int8), nothing,
                    nothing.astype(np.int32), (nothing + DATA).astype(np.int8), flow.astype(np.int32), number,
                    nothing, nothing.astype(np.int32) - 1, np.zeros((0, 5), dtype=np.int64))
    assert table.retransmission.tolist() == [one[3] for one in segments]
    assert table.is_new.tolist() == [one[4] for one in segments]


@pytest.mark.parametrize("most", [255, 65535])
def test_names_of_instances(most: int) -> None:
    found = pipes_named(np.array([most * 256 + 7, -1, 256, most * 256 + 7]))
    assert [None if one != one else one for one in found] == [f"{most}.7", None, "1.0", f"{most}.7"]
    assert list(found.categories) == ["1.0", f"{most}.7"]


def test_times_of_creation_that_fall(tmp_path: Path, program: str) -> None:
    """Rows are refused like the lines of a report, at the row whose time is before that of the row above."""
    text = "experiment a seed 1 budget 9\n" + "".join(
        f"@{moment} inject udp 10.0.0.1 1 10.0.1.1 2 100\n" for moment in (5, 6, 7)) + "@9 end\n"
    (tmp_path / "scenario.txt").write_text(text)
    dnlab.run(text, out=tmp_path / "rows.npy", dnlab=program)
    (tmp_path / "rows.npy.json").unlink()
    data = bytearray((tmp_path / "rows.npy").read_bytes())
    made = [place for place in range(512, len(data), 40) if data[place + 36] == 2]
    assert [struct.unpack_from("<q", data, place)[0] for place in made] == [5, 6, 7]
    struct.pack_into("<q", data, made[2], 4)
    (tmp_path / "rows.npy").write_bytes(data)
    row = (made[2] - 512) // 40
    with pytest.raises(dnlab.InputError, match=rf"rows\[{row}\]: time 4 after 6$"):
        dnlab.read(tmp_path / "rows.npy", tmp_path / "scenario.txt")["a"]
