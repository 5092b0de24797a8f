"""Packs a stand-in for the library and the program with `packaging/make_dist.py`, and checks the tarball, the wheel, the crate,
the package's lists and the list of all that is linked. `checks/run` calls it; its last line is `N passed, M failed`.

What needs more than python3 (the package itself, the true library, a commit) is tried by `checks/system/package`, and that wheel
and crate are of use by `checks/library/page`.
"""
import base64
import hashlib
import json
import os
import re
import shutil
import subprocess
import sys
import tarfile
import tempfile
import types
import zipfile

sys.dont_write_bytecode = True
sys.path[:0] = ["packaging", "checks", "bench"]
import linked
import make_dist
import unproved
import wheel
from counts import COMMIT, Counts, files_of

# Below the prefix; each file of the licences has the name of its crate too.
WANTED = {
    "bin/ion", "include/cozgelt.h", "lib/libcozgelt.a", "lib/libcozgelt.so", "lib/libcozgelt.so.0.2",
    "lib/pkgconfig/cozgelt.pc", "share/man/man1/ion.1.gz",
    "share/bash-completion/completions/ion", "share/zsh/site-functions/_ion", "share/fish/vendor_completions.d/ion.fish",
    "share/doc/cozgelt/LICENSE", "share/doc/cozgelt/NOTICE", "share/doc/cozgelt/changelog.gz",
    "share/doc/cozgelt/REFUSALS.md", "share/doc/cozgelt/DIFFERENCES.md", "share/doc/cozgelt/LIBRARY.md",
    "share/doc/cozgelt/examples/example.c", "share/doc/cozgelt/examples/stream.c",
    "share/doc/cozgelt/cozgelt.spdx.json",
}


def stand_in(folder):
    """A library that is none."""
    for name in ("include/cozgelt.h", "lib/libcozgelt.a", "lib/pkgconfig/cozgelt.pc", "lib/libcozgelt.so.0.2"):
        os.makedirs(os.path.join(folder, os.path.dirname(name)), exist_ok=True)
        with open(os.path.join(folder, name), "wb") as file:
            file.write(b"\0GLIBC_2.2.5\0GLIBC_2.14\0" if "so" in name else b"x")
    return folder


def judge_licences(counts, what, names):
    """A licence of each crate that is linked is among these."""
    of = {re.split(r"[./]", name)[-2] for name in names}
    counts.judge(of == {folder for *_, folder in linked.crates()}, f"the licences of {what}", names)


def judge_wheel(counts, given, folder):
    names = {make_dist.make_wheel(f"{folder}/wheel {number}", given, COMMIT, b"{}") for number in (1, 2)}
    number = "0.2.0.dev19700101+g000000000"
    wanted = f"cozgelt-{number}-py3-none-manylinux_2_17_x86_64.manylinux2014_x86_64.whl"
    counts.judge(names == {wanted}, "the wheel's name", names)
    paths = [f"{folder}/wheel {number}/{wanted}" for number in (1, 2)]
    counts.judge(make_dist.read(paths[0]) == make_dist.read(paths[1]), "the wheel: the same bytes twice")
    with zipfile.ZipFile(paths[0]) as archive:
        files, inside = {name: archive.read(name) for name in archive.namelist()}, f"cozgelt-{number}.dist-info/"
        counts.judge({entry.date_time for entry in archive.infolist()} == {(1980, 1, 1, 0, 0, 0)}, "the wheel: times")
    ours = {f"cozgelt/{name}" for name in ("__init__.py", "py.typed", "libcozgelt.so")}
    ours |= {f"{inside}{name}" for name in ("METADATA", "WHEEL", "RECORD", "sboms/cozgelt.spdx.json")}
    ours |= {f"{inside}licenses/{name}" for name in ("LICENSE", "NOTICE")}
    licences = {name for name in files if name.startswith(inside + "licenses/")} - ours
    judge_licences(counts, "the wheel", licences)
    counts.judge(set(files) - licences == ours, "the files of the wheel", set(files) - licences ^ ours)
    rows = [line.split(",") for line in files[inside + "RECORD"].decode().splitlines()]
    sums = {name: base64.urlsafe_b64encode(hashlib.sha256(data).digest()).decode().rstrip("=") for name, data in files.items()}
    right = [[name, f"sha256={sums[name]}", str(len(data))] for name, data in files.items() if not name.endswith("/RECORD")]
    counts.judge(rows == [*right, [inside + "RECORD", "", ""]], "the wheel's RECORD", rows)
    tags = re.findall("^Tag: (.*)$", files[inside + "WHEEL"].decode(), re.M)
    counts.judge(tags == ["py3-none-manylinux_2_17_x86_64", "py3-none-manylinux2014_x86_64"], "the wheel's tags", tags)
    counts.judge(f"\nName: cozgelt\nVersion: {number}\n" in files[inside + "METADATA"].decode(), "the wheel's version")
    got = [wheel.number_of("0.2.0"), wheel.platforms_of("2.34"), wheel.platforms_of("2.5") == wheel.platforms_of("2.17")]
    counts.judge(got == ["0.2.0", ["manylinux_2_34_x86_64"], True], "other numbers", got)


def judge_crate(counts, given):
    names = {name for name, _, _ in make_dist.crate_files(given, b"{}")}
    ours = {"Cargo.toml", "build.rs", "lib/libcozgelt.a", "licences/LICENSE", "licences/NOTICE", "cozgelt.spdx.json"}
    ours |= {name for name in files_of("bindings/rust") if name.startswith(("src/", "tests/"))}
    licences = {name for name in names if name.startswith("licences/")} - ours
    judge_licences(counts, "the crate", licences)
    counts.judge(names - licences == ours, "the files of the crate", names - licences ^ ours)


def judge_tarball(counts, given, folder):
    made = []
    for number in (1, 2):
        path = os.path.join(folder, f"{number}.tar.gz")
        make_dist.make_tarball(path, "cozgelt", make_dist.files("tar", given, COMMIT, b"{}"), COMMIT)
        made.append(make_dist.read(path))
    counts.judge(made[0] == made[1], "the same bytes twice")
    with tarfile.open(os.path.join(folder, "1.tar.gz")) as tar:
        entries = {entry.name.removeprefix("cozgelt/"): entry for entry in tar}
        licences = {name for name in entries if name.startswith("share/doc/cozgelt/licences/")}
        counts.judge(set(entries) - licences == WANTED, "the files of the tarball", set(entries) - licences ^ WANTED)
        judge_licences(counts, "the tarball", licences)
        counts.judge(entries["lib/libcozgelt.so"].linkname == "libcozgelt.so.0.2", "the link")
        modes = {name for name, entry in entries.items() if entry.mode & 0o111 and not entry.issym()}
        counts.judge(modes == {"bin/ion"}, "what can be run", modes)
        counts.judge({(entry.mtime, entry.uid, entry.uname) for entry in entries.values()} == {(1, 0, "root")}, "times and owners")
        with open(given.program, "rb") as program:
            counts.judge(tar.extractfile("cozgelt/bin/ion").read() == program.read(), "the program as it was built")


def judge_versions(counts, program):
    """Each file that names the version names that of the program."""
    said = subprocess.run([program, "--version"], capture_output=True, text=True).stdout
    first, second, third = (int(digits) for digits in re.match(r"ion (\d+)\.(\d+)\.(\d+)", said).groups())
    number, whole = f"{first}.{second}.{third}", 10000 * first + 100 * second + third
    for name, line in {
        "c/cozgelt.pc": f"Version: {number}", "c/cozgelt.h": f"#define COZGELT_VERSION {whole}",
        "c/Makefile": f"SONAME = libcozgelt.so.{first}.{second}", "rust/Cargo.toml": f'version = "{number}"',
        "rust/src/lib.rs": f"const VERSION: u32 = {whole};", "python/cozgelt.py": f"_VERSION = {whole} ",
    }.items():
        text = make_dist.read(f"bindings/{name}").decode()
        counts.judge(any(each.startswith(line) for each in text.split("\n")), f"bindings/{name}", line)


def judge_emptied(counts, folder):
    """A folder of an earlier run is emptied; one that holds anything else stays as it is."""
    version, sum = COMMIT.version, "0" * 64
    ends = ("-linux-amd64.tar.gz", "-rust.tar.gz", ".spdx.json")
    own = {f"cozgelt_{version}_amd64.deb", *(f"cozgelt-{version}{end}" for end in ends)}
    own.add("cozgelt-0.2.0.dev19700101+g0-py3-none-manylinux2014_x86_64.whl")
    own = {name: b"" for name in own} | {"SHA256SUMS": "".join(f"{sum}  {name}\n" for name in own).encode()}
    for number, (what, more) in enumerate({
        "what a run made": {}, "a text": {"mine.txt": b"x"}, "a hidden file": {".git": b"x"}, "a folder": {"library/lib.a": b"x"},
        "a folder of such a name": {"cozgelt_1_amd64.deb/mine": b"x"}, "a package of another": {"other_1_amd64.deb": b"x"},
        "sums of others": {"SHA256SUMS": f"{sum}  mine.txt\n".encode()},
    }.items()):
        out = f"{folder}/out{number}"
        make_dist.emptied(out)
        for name, data in {**own, **more}.items():
            make_dist.write(f"{out}/{name}", 0o644, data)
        before = files_of(out)
        try:
            make_dist.emptied(out)
            counts.judge(not more and not os.listdir(out), f"emptied: {what}", os.listdir(out))
        except SystemExit:
            counts.judge(more and files_of(out) == before, f"kept: {what}", files_of(out))


def linked_by(name):
    """The crates of the kit that this one and those below it stand on, by crates.txt."""
    with open("crates.txt", encoding="utf-8") as file:
        lines = [line.split(":") for line in file if ":" in line and not line.startswith("#")]
    below = {line[0].split()[0]: line[1].split() for line in lines}
    todo, found = [name], set()
    while todo:
        for used in below.get(todo.pop(), ()):
            (todo.append if used in below else found.add)(used)
    return found


def judge_linked(counts):
    """NOTICE's table has each crate that is linked, and the list has each of NOTICE's."""
    used = (linked_by("ion_tool") | linked_by("cozgelt_c")) - {"core", "std_alloc"}  # parts of the kit's standard library
    folders = {folder for *_, folder in linked.crates()}
    counts.judge(used <= folders, "crates.txt in NOTICE", used - folders)
    listing = linked.spdx("0.2.0", "0" * 40, "1970-01-01T00:00:01Z", "kit", "2.34", "12.2.0")
    names = {each["name"] for each in listing["packages"]}
    counts.judge({"cozgelt", "glibc", "libgcc", "rattle-kit", *(name for name, *_ in linked.crates())} == names, "the list", names)
    ids = {each["SPDXID"] for each in listing["packages"]} | {"SPDXRef-DOCUMENT"}
    ends = {row[end] for row in listing["relationships"] for end in ("spdxElementId", "relatedSpdxElement")}
    counts.judge(ids == ends and json.loads(json.dumps(listing)) == listing, "its relations", ids ^ ends)


def judge_control(counts, given):
    listed = list(make_dist.files("deb", given, COMMIT, b"{}"))
    names = [name for name, _, _ in listed]
    theirs = {"share/zsh/vendor-completions/_ion", "share/doc/cozgelt/changelog.Debian.gz"}
    counts.judge(theirs <= set(names), "Debian's names", names)
    fields = dict(re.findall(r"^([\w-]+): (.*)$", make_dist.control(COMMIT, listed, "2.34"), re.M))
    wanted = {"Package": "cozgelt", "Version": COMMIT.version, "Depends": "libc6 (>= 2.34), sse4.2-support"}
    counts.judge(wanted.items() <= fields.items(), "control", fields)
    counts.judge(make_dist.shlibs(COMMIT, listed) == f"libcozgelt 0.2 cozgelt (>= {COMMIT.version})\n", "shlibs")
    libc = make_dist.oldest_libc([given.program, given.library + "/lib/libcozgelt.so.0.2"])
    counts.judge(libc == "2.34", "the oldest C library, as README has it", libc)


def main():
    counts = Counts()
    if not shutil.which("rt"):
        print("skipped: rt\n0 passed, 0 failed")
        return 0
    kit = unproved.kit()
    with tempfile.TemporaryDirectory() as folder:
        given = types.SimpleNamespace(program=os.path.abspath(sys.argv[1]), library=stand_in(folder + "/library"), kit=kit)
        judge_tarball(counts, given, folder)
        judge_wheel(counts, given, folder)
        judge_crate(counts, given)
        judge_control(counts, given)
        judge_emptied(counts, folder)
    judge_versions(counts, os.path.abspath(sys.argv[1]))
    judge_linked(counts)
    return counts.close()


if __name__ == "__main__":
    sys.exit(main())
