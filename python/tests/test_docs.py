"""The notebook docs/howto/queues.ipynb shows the output that its cells produce."""
import pytest
from conftest import ROOT


def plain(text: str) -> str:
    """Returns a text without spaces at the ends of its lines."""
    return "\n".join(line.rstrip() for line in text.strip().split("\n"))


def told(cell) -> list[str]:
    """Returns the output of a cell as text. For a picture, it only returns that there is one."""
    found = []
    for output in cell.get("outputs", []):
        data = output.get("data", {})
        if "image/png" in data:
            found.append("a picture")
        elif "text/plain" in data:
            found.append(plain(data["text/plain"]))
        elif output.get("name") == "stdout":
            found.append(plain(output["text"]))
    return found


def test_the_notebook(program: str, monkeypatch: pytest.MonkeyPatch) -> None:
    """It runs in its own folder, where nothing sets the path of the package."""
    nbformat = pytest.importorskip("nbformat", reason="nbconvert is missing (Debian: python3-nbconvert)")
    execute = pytest.importorskip("nbconvert.preprocessors",
                                  reason="nbconvert is missing (Debian: python3-nbconvert)")
    pytest.importorskip("ipykernel", reason="ipykernel is missing (Debian: python3-ipykernel)")
    pytest.importorskip("matplotlib_inline", reason="matplotlib is missing (Debian: python3-matplotlib)")
    monkeypatch.delenv("PYTHONPATH", raising=False)
    for name, value in {"PYTHONDONTWRITEBYTECODE": "1", "DNLAB": program}.items():
        monkeypatch.setenv(name, value)
    [path] = (ROOT / "docs").rglob("queues.ipynb")
    book = nbformat.read(path, 4)
    wanted = [told(cell) for cell in book.cells]
    execute.ExecutePreprocessor(timeout=600,
                                kernel_name="python3").preprocess(book,
                                                                  {"metadata": {"path": str(path.parent)}})
    assert [told(cell) for cell in book.cells] == wanted
    assert sum("a picture" in one for one in wanted) == 2
