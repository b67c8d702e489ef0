"""Texts of a template that several processes render."""
from pathlib import Path

import pytest

from dnlab.errors import InputError
from dnlab.sweeps.rendering import Renderer
from dnlab.sweeps.templates import Template


def test_long_texts_are_made_together(tmp_path: Path, monkeypatch: pytest.MonkeyPatch) -> None:
    """With several processes, texts are in the order in which they are asked for, and a fault comes with the
    text that has it."""
    monkeypatch.setattr("dnlab.sweeps.rendering._LONG", 0.0)
    (tmp_path / "slow.tmpl").write_text("# {{ seed }} {{ 1 // (seed - 7) }} {{ rng.random() }}\n")
    template = Template(tmp_path / "slow.tmpl")
    found = Renderer(template, 3)
    try:
        found.ahead((f"a{seed}", seed, {}) for seed in range(12))
        for seed in (0, 1, 2, 3, 4, 5, 6, 8):
            assert found.render(f"a{seed}", seed, {}, "told") == template.render(f"a{seed}", seed, {})
        with pytest.raises(InputError, match="slow.tmpl: line 1: ZeroDivisionError"):
            found.render("a7", 7, {}, "told")
        assert found.render("a11", 11, {}, "told").startswith("# 11 0 ")
    finally:
        found.close()
