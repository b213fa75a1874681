"""The filler that a store may keep after the text of a snapshot's file: one last line of `#` only (docs/HOST.md, "Filler")."""


def text_of(data):
    """What a file has in front of its filler. Filler without its newline is no filler here, since nobody else would read it as such."""
    kept = data[:-1].rstrip(b"#") if data.endswith(b"\n") else data
    is_filler = len(kept) + 1 < len(data) and (not kept or kept.endswith(b"\n"))
    return kept if is_filler else data
