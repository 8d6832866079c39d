"""The unit tests of published crates, with the program's impls in place of the built-in derives.

usage: crates.py FOLDER PROGRAM DERIVE TEMPORARY [NAME..]

Each crate of FOLDER, or each that is named, is copied to TEMPORARY. In its sources `#[derive(::educe::Educe)]` and
`#[educe(..)]` take the place of the derives of the nine traits; other derives stay. DERIVE is the folder of the macro.
Then its unit tests are run, with FOLDER in place of the registry.
"""
import os
import re
import shutil
import subprocess
import sys
import tomllib

from derives import changes_of, derived
from rust_source import definitions_in, replaced

DEPENDENCIES = ("dependencies", "dev-dependencies", "build-dependencies")

def with_macro(text):
    """The text with the macro in place of the derives, and the number of definitions that it concerns."""
    found = [item for item in definitions_in(text) if item.keyword != "union" and derived(item)]
    changes = [change for item in found for change in changes_of(item, "#[derive(::educe::Educe)] ")]
    return replaced(text, changes), len(found)

def change_sources(folder):
    """Changes all sources of a crate, and counts the definitions."""
    count = 0
    for path, _, names in os.walk(os.path.join(folder, "src")):
        for name in names:
            if name.endswith(".rs"):
                file = os.path.join(path, name)
                with open(file, encoding="utf-8") as source:
                    text, changed = with_macro(source.read())
                with open(file, "w", encoding="utf-8") as source:
                    source.write(text)
                count += changed
    return count

def declare_macro(folder, manifest):
    """Declares the crate of the macro where the edition asks for it."""
    if manifest["package"].get("edition", "2015") == "2015":
        with open(os.path.join(folder, manifest.get("lib", {}).get("path", "src/lib.rs")), "a", encoding="utf-8") as root:
            root.write("\nextern crate educe;\n")

def value_text(value):
    """A value of a manifest."""
    if isinstance(value, bool):
        return str(value).lower()
    if isinstance(value, list):
        return "[" + ", ".join(map(value_text, value)) + "]"
    if isinstance(value, dict):
        return "{ " + ", ".join(f"{key_text(key)} = {value_text(inner)}" for key, inner in value.items()) + " }"
    if isinstance(value, str):
        escaped = "".join(c if c.isprintable() and c not in '"\\' else f"\\u{ord(c):04x}" for c in value)
        return f'"{escaped}"'
    return str(value)

def key_text(key):
    """A key of a manifest."""
    return value_text(str(key))

def write_manifest(path, manifest):
    """Writes a manifest, with a table for each of its keys that has one."""
    with open(path, "w", encoding="utf-8") as file:
        for key, value in manifest.items():
            if isinstance(value, dict):
                file.write(f"[{key_text(key)}]\n")
                file.writelines(f"{key_text(name)} = {value_text(inner)}\n" for name, inner in value.items())
            elif isinstance(value, list) and value and isinstance(value[0], dict):
                for table in value:
                    file.write(f"[[{key_text(key)}]]\n")
                    file.writelines(f"{key_text(name)} = {value_text(inner)}\n" for name, inner in table.items())
            else:
                raise ValueError(f"a manifest with {key} outside of a table")

def tables_of(manifest):
    """The tables of dependencies, of each target too."""
    for tables in [manifest, *manifest.get("target", {}).values()]:
        for kind in DEPENDENCIES:
            yield kind, tables.get(kind, {})

def without_dependency(manifest, package):
    """Takes out a dependency that is not needed, and what names it in features. Whether there was one."""
    gone = set()
    for kind, table in tables_of(manifest):
        for name, value in list(table.items()):
            details = value if isinstance(value, dict) else {}
            if details.get("package", name) == package and (kind == "dev-dependencies" or details.get("optional")):
                del table[name]
                gone.add(name)
    for name, values in manifest.get("features", {}).items():
        kept = [value for value in values if re.split(r"[?/]", value.removeprefix("dep:"))[0] not in gone or value in manifest["features"]]
        manifest["features"][name] = kept
    return bool(gone)

def run_cargo(folder, program, *words):
    """Runs cargo in a folder, with warnings that don't count."""
    environment = dict(os.environ, EDUCE=program, RUSTFLAGS="--cap-lints warn -A warnings")
    return subprocess.run(["cargo", *words, "--offline"], cwd=folder, env=environment, capture_output=True, text=True)

def resolve(folder, program, manifest):
    """Takes out dependencies that are not installed and not needed, until cargo finds all others. What is missing."""
    path = os.path.join(folder, "Cargo.toml")
    while True:
        write_manifest(path, manifest)
        answer = run_cargo(folder, program, "generate-lockfile")
        if answer.returncode == 0:
            return None
        named = re.search(r"(?:no matching package named|searched package name:) `([^`]+)`|for the requirement `([^ `]+)|package `?([\w-]+)[ `]", answer.stderr)
        missing = next(filter(None, named.groups()), None) if named else None
        if missing is None or not without_dependency(manifest, missing):
            return missing or answer.stderr.strip().split("\n")[0]

def test(folder, program):
    """How many unit tests pass, or the first lines that say why not."""
    answer = run_cargo(folder, program, "test", "--lib", "--quiet", "--message-format", "short")
    counts = re.findall(r"test result: ok\. (\d+) passed; 0 failed", answer.stdout)
    if answer.returncode == 0 and counts:
        return sum(map(int, counts)), []
    lines = [line for line in (answer.stdout + answer.stderr).split("\n") if re.search(r"error|panicked|FAILED", line)]
    return None, lines[:4]

def copy_of(source, folder):
    """Copies a crate without what belongs to its package."""
    shutil.copytree(source, folder, symlinks=False, ignore=shutil.ignore_patterns("Cargo.lock", ".cargo*", "target", "debian"))
    with open(os.path.join(folder, "Cargo.toml"), "rb") as file:
        manifest = tomllib.load(file)
    manifest.pop("workspace", None)
    return manifest

def try_crate(source, program, derive, temporary):
    """Tries one crate; prints a line, and returns whether its tests pass."""
    name = os.path.basename(source)
    folder = os.path.join(temporary, name)
    manifest = copy_of(source, folder)
    missing = resolve(folder, program, manifest)
    if missing:
        print(f"{name}: not tried, since {missing} is not installed")
        return None
    manifest.setdefault("dependencies", {})["educe"] = {"path": derive}
    write_manifest(os.path.join(folder, "Cargo.toml"), manifest)
    count = change_sources(folder)
    declare_macro(folder, manifest)
    passed, lines = test(folder, program)
    if passed is not None:
        print(f"{name}: {count} derives, " + (f"{passed} tests pass" if passed else "compiled, no unit tests"), flush=True)
        return True if passed else None
    shutil.rmtree(folder)
    resolve(folder, program, copy_of(source, folder))
    built_in, _ = test(folder, program)
    print(f"{name}: {count} derives, NOT PASSED ({'not' if built_in is None else built_in} passed with the built-in derives)")
    print("\n".join("    " + line for line in lines), flush=True)
    return False

def main():
    registry, program, derive, temporary, *names = sys.argv[1:]
    os.makedirs(os.path.join(temporary, ".cargo"))
    with open(os.path.join(temporary, ".cargo", "config.toml"), "w") as file:
        file.write(f'[source.crates-io]\nreplace-with = "unpacked"\n\n[source.unpacked]\ndirectory = "{registry}"\n')
    os.environ["CARGO_TARGET_DIR"] = os.path.join(temporary, "target")
    crates = [name for name in sorted(os.listdir(registry)) if os.path.isfile(os.path.join(registry, name, "Cargo.toml"))]
    chosen = [name for name in crates if not names or name in names or re.sub(r"-\d.*", "", name) in names]
    results = [try_crate(os.path.join(registry, name), program, derive, temporary) for name in chosen]
    print(f"{results.count(True)} crates pass, {results.count(False)} do not, {results.count(None)} ran no test")
    sys.exit(not results or False in results)

if __name__ == "__main__":
    main()
