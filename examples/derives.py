"""`educe` attributes in place of derives of the nine traits."""
import re

from rust_source import definitions_in, macro_bodies, replaced

TRAITS = ("Debug", "Clone", "Copy", "PartialEq", "Eq", "PartialOrd", "Ord", "Hash", "Default")

def trait_of(path):
    """The trait of the nine that a path in a derive names, if it does."""
    words = re.sub(r"\s", "", path).removeprefix("::").split("::")
    return words[-1] if words[-1] in TRAITS and (len(words) == 1 or words[0] in ("core", "std")) else None

def paths_of(attribute):
    """The paths that a derive lists."""
    content = re.sub(r"//[^\n]*|/\*.*?\*/", "", attribute.content, flags=re.S)
    return [path.strip() for path in content.split(",") if path.strip()]

def derived(definition):
    """The traits of the nine that a definition derives, in their order."""
    listed = {trait_of(path) for attribute in definition.attributes if attribute.path == "derive" for path in paths_of(attribute)}
    return [name for name in TRAITS if name in listed]

def changes_of(definition, front):
    """What has to be replaced so that `educe` attributes ask for the traits; `front` stands before the first one."""
    own = f"{front}#[educe({', '.join(derived(definition))})]"
    found = []
    for attribute in definition.attributes:
        if attribute.path == "derive" and any(map(trait_of, paths_of(attribute))):
            others = [path for path in paths_of(attribute) if not trait_of(path)]
            kept = [f"#[derive({', '.join(others)})]"] if others else []
            found.append((attribute.start, attribute.end, " ".join(kept + [own] if own else kept)))
            own = ""
    if "Default" in derived(definition) and definition.keyword == "enum":
        found += [(a.start, a.end, "#[educe(Default)]") for a in definition.inner if a.path == "default"]
    return found

def definitions_of(text):
    """The structs and enums that derive one of the nine traits, outside of macros' bodies."""
    bodies = list(macro_bodies(text)) if "macro_rules" in text else []
    for definition in definitions_in(text) if "derive" in text else []:
        inside = any(start < definition.start < end for start, end in bodies)
        if definition.keyword != "union" and derived(definition) and not inside:
            yield definition

def with_attributes(text, definition):
    """The text of a definition with `educe` attributes in place of its derives."""
    shift = definition.start
    changes = [(start - shift, end - shift, new) for start, end, new in changes_of(definition, "")]
    return replaced(text[definition.start:definition.end], changes)
