"""pack.py FROM TO: packs the plans of the folder FROM, texts as tools/planfile takes them, as TO/*.plan. Where the first line is '# refused N: SENTENCE', that
is written to TO/*.said."""
import importlib.machinery
import importlib.util
import pathlib
import sys

ROOT = pathlib.Path(__file__).resolve().parents[2]


def planfile():
    """tools/planfile as a module; it is not compiled, for tools/ is no place for that."""
    loader = importlib.machinery.SourceFileLoader("planfile", str(ROOT / "tools" / "planfile"))
    module = importlib.util.module_from_spec(importlib.util.spec_from_loader("planfile", loader))
    loader.exec_module(module)
    return module


def main():
    source, target = map(pathlib.Path, sys.argv[1:])
    pack = planfile().pack
    target.mkdir()
    for text in sorted(source.glob("*.txt")):
        lines = text.read_text()
        (target / text.with_suffix(".plan").name).write_bytes(pack(lines, text.name))
        if lines.startswith("# refused "):
            (target / text.with_suffix(".said").name).write_text(lines.split("\n")[0][2:] + "\n")


main()
