"""Packs the module for pip, with Python's own library alone: what pyproject.toml names as its build backend (PEP 517, PEP 660).

The wheel holds prohunsev.py, the licences, and the shared library of the clone's lib/ where tools/library has made it, so that what is
installed stands alone. Without lib/ the module is packed by itself, and says on import what to run."""
import ast
import base64
import hashlib
import pathlib
import re
import sysconfig
import zipfile

HERE = pathlib.Path(__file__).resolve().parent
LICENCES = ("LICENSE-MIT", "LICENSE-APACHE", "NOTICE")


def _project():
    """The lines of [project] whose value is a text or a list of texts: those are literals of Python too, and 3.8 reads no TOML."""
    table = (HERE / "pyproject.toml").read_text("utf-8").split("[project]\n")[1].split("\n[")[0]
    return {key: ast.literal_eval(value) for key, value in re.findall(r'^([\w-]+) = ("[^"]*"|\["[^]]*\])$', table, re.M)}


def _metadata(project):
    lines = ["Metadata-Version: 2.1", f"Name: {project['name']}", f"Version: {project['version']}", f"Summary: {project['description']}",
             "Author: the Prohunsev maintainers", "License: MIT OR Apache-2.0", f"Keywords: {','.join(project['keywords'])}",
             f"Requires-Python: {project['requires-python']}", "Provides-Extra: numpy", 'Requires-Dist: numpy; extra == "numpy"',
             *(f"License-File: {name}" for name in LICENCES), "Description-Content-Type: text/markdown", ""]
    return "\n".join(lines) + "\n" + (HERE / "README.md").read_text("utf-8")


def _pack(folder, files, tag):
    """Writes a wheel of these files, name to bytes, and answers its name."""
    project = _project()
    stem = f"{project['name']}-{project['version']}"
    info = f"{stem}.dist-info"
    files = dict(files)
    for name in LICENCES:
        if (HERE.parent / name).is_file():
            files[f"{info}/{name}"] = (HERE.parent / name).read_bytes()
    files[f"{info}/METADATA"] = _metadata(project).encode()
    pure = "true" if tag.endswith("-any") else "false"
    files[f"{info}/WHEEL"] = f"Wheel-Version: 1.0\nGenerator: prohunsev\nRoot-Is-Purelib: {pure}\nTag: {tag}\n".encode()
    sums = {name: base64.urlsafe_b64encode(hashlib.sha256(data).digest()).rstrip(b"=").decode() for name, data in files.items()}
    record = [f"{name},sha256={sums[name]},{len(data)}" for name, data in files.items()] + [f"{info}/RECORD,,"]
    files[f"{info}/RECORD"] = ("\n".join(record) + "\n").encode()
    wheel = f"{stem}-{tag}.whl"
    with zipfile.ZipFile(pathlib.Path(folder, wheel), "w", zipfile.ZIP_DEFLATED) as packed:
        for name, data in files.items():
            entry = zipfile.ZipInfo(name)  # 1980, so that the same files make the same wheel
            entry.compress_type, entry.external_attr = zipfile.ZIP_DEFLATED, (0o755 if name.endswith(".so") else 0o644) << 16
            packed.writestr(entry, data)
    return wheel


def build_wheel(wheel_directory, config_settings=None, metadata_directory=None):
    files, tag = {file.name: file.read_bytes() for file in sorted(HERE.glob("prohunsev.py*"))}, "py3-none-any"
    library = HERE.parent / "lib/libprohunsev.so"
    if library.is_file():
        files["libprohunsev.so"] = library.read_bytes()
        tag = "py3-none-" + re.sub(r"\W", "_", sysconfig.get_platform())
        print(f"prohunsev: packed with {library}")
    else:
        print(f"prohunsev: packed without the proved functions, since there is no {library}: run tools/library")
    return _pack(wheel_directory, files, tag)


def build_editable(wheel_directory, config_settings=None, metadata_directory=None):
    return _pack(wheel_directory, {"prohunsev.pth": f"{HERE}\n".encode()}, "py3-none-any")


def build_sdist(sdist_directory, config_settings=None):
    raise SystemExit("prohunsev: the source is the whole clone, and a folder of its Python alone makes no library: pip install ./python")
