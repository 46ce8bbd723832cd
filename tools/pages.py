"""The parts of a page that a tool makes: what is between `<!-- NAME -->` and `<!-- end -->`, each on a line of its own."""

END = "<!-- end -->"


def start_of(name):
    return f"<!-- {name} -->"


def blocks_in(text, names):
    """Those of the names that have a block in the page."""
    lines = text.splitlines()
    return [name for name in names if start_of(name) in lines]


def unknown_blocks(text, prefix, names):
    """The names of blocks that begin so and aren't among the names."""
    found = [line[5:-4] for line in text.splitlines() if line.startswith("<!-- " + prefix)]
    return [name for name in found if name not in names]


def block(text, name):
    """The lines of a page's block, without its marks."""
    lines = text.splitlines()
    start = lines.index(start_of(name)) + 1
    return lines[start : lines.index(END, start)]


def with_blocks(text, blocks):
    """The page with these lines in its blocks, by name; a block that isn't among them stays as it is."""
    starts = {start_of(name): made for name, made in blocks.items()}
    kept, skips = [], False
    for line in text.splitlines():
        if line == END:
            skips = False
        if not skips:
            kept.append(line)
        if line in starts:
            kept += starts[line]
            skips = True
    if skips:
        raise ValueError(f"a block has no `{END}` after it")
    return "\n".join(kept) + "\n"


def table(heads, rows):
    """The lines of a table with these heads."""
    return [row(heads), "|---" * len(heads) + "|", *map(row, rows)]


def row(cells):
    return "| " + " | ".join(cell.replace("|", "\\|") for cell in cells) + " |"
