"""tools/gate/module_parts.py: a checked build that is compiled in parts keeps its checks."""
import sys
from pathlib import Path

from conftest import ROOT

sys.path.append(str(ROOT / "tools" / "gate"))
import module_parts  # noqa: E402  (the path is set first)

LONG = "".join(f"  %l{it} = add i32 %a0, {it}\n" for it in range(module_parts.SMALL))
# A module as the kit writes it: a function that is in every part checks the sum of a large one.
MODULE = f"""target triple = "x86_64-unknown-linux-gnu"

define i32 @main(i32 %a0) #0 {{
{LONG}  %r1 = call i32 @"low::sum"(i32 %a0)
}}

define internal i32 @"low::sum"(i32 noundef %a0) #0 {{
{LONG}  call void @"rattle-llvm-checks::Overflow"(i8 %r3)
}}

define internal void @"rattle-llvm-checks::Overflow"(i8 %a0) #0 {{
  call void @llvm.trap()
}}

declare void @llvm.trap()

attributes #0 = {{ nounwind sanitize_address }}
"""


def test_each_part_has_the_checks(tmp_path: Path) -> None:
    (tmp_path / "module.ll").write_text(MODULE)
    first, second = (part.read_text() for part in module_parts.cut(tmp_path / "module.ll", tmp_path, 2))
    check = '@"rattle-llvm-checks::Overflow"(i8 '
    assert all(f"define internal void {check}%a0)" in part for part in (first, second))
    # A large function is in one part, with its call of the check.
    assert f"call void {check}%r3)" in second and 'define hidden i32 @"low::sum"' in second
    assert 'declare hidden i32 @"low::sum"' in first
    assert 'call void @"checked::stop"()' in first and "@llvm.trap()\n}" not in first
