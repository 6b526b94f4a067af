"""Makes the wheel that `pip install ./python` asks for, with Python's library alone, so that no other package and no network is needed.

A wheel that is made in a clone of the repository names that clone, whose program is used then; with VODMEJKA_RELEASE set it names none. Python 3.10 has no
reader of TOML, so pyproject.toml is read by its lines.
"""
import base64
import gzip
import hashlib
import io
import os
import re
import tarfile
import zipfile

HERE = os.path.dirname(os.path.abspath(__file__))
NAME = "vodmejka"
CLONE = f"{NAME}/clone.path"
ANY = "py3-none-any"
SCRIPTS = "[console_scripts]\nvodmejka = vodmejka.__main__:main\n"
WEB = f"{NAME}/web"
FIRST = (1980, 1, 1, 0, 0, 0)


def build_wheel(wheel_directory, config_settings=None, metadata_directory=None):
    """The hook of PEP 517: writes the wheel, and answers its name."""
    files = {entry: content_of(entry) for entry in package_files()}
    if (top := clone()) is not None:
        files[CLONE] = os.fsencode(top) + b"\n"
    return written(wheel_directory, files)


def build_whole(wheel_directory, programs, tag):
    """Writes a wheel with programs inside, for the machines that the tag names, and answers its name. `programs` are the contents by their names."""
    files = {entry: content_of(entry) for entry in package_files()}
    return written(wheel_directory, files, {f"{NAME}/bin/{name}": content for name, content in programs.items()}, tag)


def build_editable(wheel_directory, config_settings=None, metadata_directory=None):
    """The hook of PEP 660: a wheel that names this folder, in which the package is used as it stands."""
    return written(wheel_directory, {f"{NAME}.pth": os.fsencode(HERE) + b"\n"})


def build_sdist(sdist_directory, config_settings=None):
    """The hook of PEP 517: writes the sources from which `build_wheel` makes the same package, and answers the file's name."""
    top = f"{NAME}-{version()}"
    names = ["pyproject.toml", "wheel_of_package.py", "README.md", *package_files()]
    files = {"PKG-INFO": metadata(), **{name: content_of(name) for name in names}}
    with open(os.path.join(sdist_directory, f"{top}.tar.gz"), "wb") as out, gzip.GzipFile("", "wb", 9, out, 0) as packed:
        with tarfile.open(fileobj=packed, mode="w", format=tarfile.PAX_FORMAT) as archive:
            for name, content in files.items():
                entry = tarfile.TarInfo(f"{top}/{name}")
                entry.size, entry.mode = len(content), 0o644
                archive.addfile(entry, io.BytesIO(content))
    return f"{top}.tar.gz"


def written(folder, files, programs=(), tag=ANY):
    """Writes a wheel with these files and programs, and answers its name. Each program is a command of its own name too."""
    info = f"{NAME}-{version()}.dist-info"
    programs = dict(programs)
    scripts = SCRIPTS + "".join(f"{name} = vodmejka.program:inside\n" for name in map(os.path.basename, programs))
    about = f"Wheel-Version: 1.0\nGenerator: vodmejka\nRoot-Is-Purelib: {'false' if programs else 'true'}\nTag: {tag}\n"
    files = {**files, **programs, f"{info}/METADATA": metadata(), f"{info}/WHEEL": about.encode(), f"{info}/entry_points.txt": scripts.encode()}
    lines = [f"{path},sha256={digest(content)},{len(content)}\n" for path, content in files.items()]
    files[f"{info}/RECORD"] = "".join([*lines, f"{info}/RECORD,,\n"]).encode()
    wheel = f"{NAME}-{version()}-{tag}.whl"
    with zipfile.ZipFile(os.path.join(folder, wheel), "w", zipfile.ZIP_DEFLATED) as out:
        for path, content in files.items():
            entry = zipfile.ZipInfo(path, FIRST)
            entry.external_attr = (0o100755 if path in programs else 0o100644) << 16
            entry.compress_type = zipfile.ZIP_DEFLATED
            out.writestr(entry, content)
    return wheel


def clone():
    """The repository in which this package stands, where it does, and the wheel isn't for others."""
    top = os.path.dirname(HERE)
    return top if os.path.exists(os.path.join(top, "crates.txt")) and not os.environ.get("VODMEJKA_RELEASE") else None


def version():
    """The version of the package, which stands in it once."""
    return re.search(r'^VERSION = "([0-9.]+)"$', content_of(f"{NAME}/version.py").decode(), re.MULTILINE)[1]


def metadata():
    """What a wheel or an archive says of the package."""
    project = content_of("pyproject.toml").decode().split("[project]\n")[1].split("\n[")[0]
    texts = dict(re.findall(r'^([a-z-]+) = "(.*)"$', project, re.MULTILINE))
    classifiers = re.findall(r'^    "(.*)",$', project, re.MULTILINE)
    heads = [("Metadata-Version", "2.1"), ("Name", NAME), ("Version", version()), ("Summary", texts["description"])]
    keywords = re.findall('"(.*?)"', re.search(r"^keywords = (.*)$", project, re.MULTILINE)[1])
    heads += [("Keywords", ",".join(keywords)), ("Requires-Python", texts["requires-python"]), *(("Classifier", one) for one in classifiers)]
    heads.append(("Description-Content-Type", "text/markdown"))
    return "".join(f"{head}: {text}\n" for head, text in heads).encode() + b"\n" + content_of(texts["readme"])


def package_files():
    """The files of the package, by their paths within it. The sources of pages are next to it in the repository, and in its folder `web` elsewhere."""
    own = files_below(os.path.join(HERE, NAME), NAME, (".py", ".typed", ".words"))
    return sorted([*own, *files_below(web_folder(), WEB, (".js", ".json", ".css", ".html"))])


def files_below(top, place, kinds):
    """The files of these kinds below a folder, as they stand below a place of the package."""
    found = [os.path.join(folder, entry) for folder, _, entries in os.walk(top) for entry in entries if entry.endswith(kinds)]
    return [os.path.join(place, os.path.relpath(path, top)) for path in found]


def web_folder():
    """The folder of the sources of pages."""
    inside = os.path.join(HERE, WEB)
    return inside if os.path.isdir(inside) else os.path.join(os.path.dirname(HERE), "web")


def content_of(entry):
    path = os.path.join(web_folder(), os.path.relpath(entry, WEB)) if entry.startswith(WEB + "/") else os.path.join(HERE, entry)
    with open(path, "rb") as file:
        return file.read()


def digest(content):
    return base64.urlsafe_b64encode(hashlib.sha256(content).digest()).rstrip(b"=").decode()
