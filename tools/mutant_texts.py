"""How a mutant changes a text, and which mutants can't be made."""
import re


def edited(text, old, new):
    """The text with one place changed, or None where there is no such place."""
    place = re.match(r'\{(\d+)\}', old)
    if place:
        parts = text.split(old[place.end():])
        n = int(place.group(1))
        return None if len(parts) <= n else old[place.end():].join(parts[:n]) + new + old[place.end():].join(parts[n:])
    return text.replace(old, new) if text.count(old) == 1 else None


def first_missing(mutant, crates):
    """The first text of a mutant that isn't found once, or None. Each edit applies to what the earlier ones made."""
    texts = {name: (crates / name).read_text() for name, _, _ in mutant.edits if (crates / name).exists()}
    for name, old, new in mutant.edits:
        texts[name] = edited(texts[name], old, new) if texts.get(name) is not None else None
        if texts[name] is None:
            return f'{name}: {old}'
    return None


def stale(mutants, crates):
    """The mutants that can't be made, each with the text that isn't found once."""
    found = [(mutant, first_missing(mutant, crates)) for mutant in mutants]
    return [(mutant, missing) for mutant, missing in found if missing is not None]
