"""What the sources of the tree name: the words outside their comments, and the options and commands of
programs."""
import functools
import pathlib
import re

ROOT = pathlib.Path(__file__).resolve().parents[2]
# Comments, by what begins them; docstrings are comments too.
SLASHES, DASHES, SIGNS = r"//[^\n]*|/\*[\s\S]*?\*/", r"--[^\n]*", r'"""[\s\S]*?"""|#[^\n]*'
COMMENTS = {".rt": SLASHES, ".c": SLASHES, ".h": SLASHES, ".cc": SLASHES, ".js": SLASHES, ".mjs": SLASHES,
            ".html": SLASHES, ".antt": DASHES, ".py": SIGNS, ".sh": SIGNS, ".bash": SIGNS, ".toml": SIGNS,
            "": SIGNS}
FOLDERS = ("crates", "python", "tools", "hosts", "stacks", "playground", "cookbook", "library", "debian",
           ".ci")
# What defines a name: a word before it, a clause's head, or its place at the beginning of a line.
DEFINED = (
    r"\b(?:fn|struct|enum|trait|record|type|const|static|mod|pub|abbrev|unfoldable|def|class)"
    r"\s+(?:pub\s+)?{0}(?!\w)"
    r"|(?:ensures|requires) {0} \{{|^\s*{0}\s*[:=(,]")
OPTION = re.compile(r"(?<![\w-])--[a-z][\w-]*")
# What each command of the tools takes.
COMMON = ("--help", "--version")


def is_source(path: pathlib.Path) -> bool:
    return path.is_file() and path.suffix in COMMENTS


@functools.lru_cache(maxsize=None)
def code_of(path: pathlib.Path) -> str:
    """The text of a source without its comments."""
    return re.sub(COMMENTS[path.suffix], "", path.read_text(encoding="utf-8", errors="replace"))


def words_in(path: pathlib.Path) -> set[str]:
    return set(re.findall(r"\w+", code_of(path)))


def defines(path: pathlib.Path, name: str) -> bool:
    """Whether a source defines a name, as a function, a clause, a field or the like, or is the module of this
    name."""
    return (name == path.stem
            or re.search(DEFINED.format(re.escape(name)), code_of(path), re.MULTILINE) is not None)


def all_words() -> set[str]:
    """The words of all sources, and the names of all files and folders."""
    found = set(re.findall(r"\w+", (ROOT / "crates.txt").read_text(encoding="utf-8")))
    for path in (path for name in (*FOLDERS, "examples", "docs") for path in (ROOT / name).rglob("*")):
        found.update([path.name, path.name.partition(".")[0]])
        if is_source(path) and path.relative_to(ROOT).parts[0] in FOLDERS:
            found |= words_in(path)
    return found | words_in(ROOT / "dnlab") | words_in(ROOT / "test")


class Programs:
    """What the programs of the tree take: options, as their files and the modules that they import have them,
    and the commands of `dnlab`."""

    def __init__(self) -> None:
        folder = ROOT / "python" / "dnlab"
        self.of_package = {it for path in folder.rglob("*.py")
                           for it in OPTION.findall(path.read_text(encoding="utf-8"))}
        script, words = ROOT / "dnlab", ROOT / "crates/command_line/src/words.rt"
        texts = [it.read_text(encoding="utf-8") for it in (script, words)]
        self.commands = {*re.findall(r'"\$\{[12]-\}" = (\w+)', texts[0]),
                         *re.findall(r'Command::new\(alloc, "(\w+)"\)', texts[1])}
        self.options: dict[pathlib.Path, set[str]] = {script: {*COMMON, *OPTION.findall("".join(texts))}}

    def has(self, program: pathlib.Path, option: str) -> bool:
        if program not in self.options:
            self.options[program] = self.options_of(program)
        return option in self.options[program]

    def options_of(self, program: pathlib.Path) -> set[str]:
        text = program.read_text(encoding="utf-8", errors="replace")
        names = set(re.findall(r"^(?:import|from) (\w+)", text, re.MULTILINE))
        modules = [folder / f"{name}.py" for folder in (program.parent, ROOT / "tools/common")
                   for name in names]
        found = {*COMMON,
                 *OPTION.findall("".join([text,
                                          *(it.read_text(encoding="utf-8")
                                            for it in modules if it.exists())]))}
        # A script that hands its own arguments to a tool takes the tool's options.
        hands_on = re.search(r'\btools/[\w-]+ [^\n]*(?:\\\n[^\n]*)*"\$@"', text)
        return found | self.of_package if "dnlab" in names or hands_on else found
