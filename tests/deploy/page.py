"""The commands of docs/FLEET.md: the tests run what a reader would."""
from parts import ROOT


def block(words):
    """The indented lines behind the line of the page that ends with these words."""
    lines = (ROOT / "docs/FLEET.md").read_text().split("\n")
    found = [k for k, line in enumerate(lines) if line.endswith(words)]
    if len(found) != 1:
        raise SystemExit(f"docs/FLEET.md has {len(found)} lines that end with: {words}")
    at = found[0] + 2
    end = at
    while lines[end].startswith("    "):
        end += 1
    return "\n".join(line[4:] for line in lines[at:end])
