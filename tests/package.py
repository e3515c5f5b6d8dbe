#!/usr/bin/env python3
"""The packages, from outside: they are made twice and are the same to the bit; unpacked into an empty root they serve the
README's first session, link programs by pkg-config, have manuals; the wheel, and what pip makes of the sources, work in an
environment of their own without a network; what was installed is removed again. With --programs FOLDER, as ./package takes it,
nothing is built."""

import filecmp
import glob
import os
import re
import shutil
import socket
import subprocess
import sys
import tempfile
import time
from typing import Dict, List, Optional, Sequence

sys.dont_write_bytecode = True
from cluster import Client, Cluster  # noqa: E402
from support import LIMIT, TOP, fail, wanted  # noqa: E402

# The packages are made from programs that may have to be built first.
BUILD_LIMIT = None


def run(words: Sequence[str], text: str = "", folder: Optional[str] = None, **names: str) -> str:
    """What a command says; it has to end well."""
    ran = subprocess.run(
        words, input=text, capture_output=True, text=True, cwd=folder, env={**os.environ, **names}, timeout=LIMIT, check=False
    )
    if ran.returncode:
        fail(f"{' '.join(words)[:120]}: status {ran.returncode}, {ran.stdout[-300:]}{ran.stderr[-600:]}")
    return ran.stdout


def made(folder: str, given: List[str]) -> List[str]:
    """Makes the packages twice."""
    for name in ("one", "two"):
        words = [f"{TOP}/package", "--out", f"{folder}/{name}", *given]
        subprocess.run(words, stdout=subprocess.DEVNULL, timeout=BUILD_LIMIT, check=True)
    names = sorted(os.listdir(f"{folder}/one"))
    same, _, _ = filecmp.cmpfiles(f"{folder}/one", f"{folder}/two", names, shallow=False)
    wanted("packages that are the same when they are made again", sorted(same), names)
    kinds = [re.sub(r"[0-9]*_.*", "", name) if name.endswith(".deb") else name.rpartition(".")[2] for name in names]
    wanted("packages", sorted(kinds), ["gz", "gz", "libtiuvrokk", "libtiuvrokk-dev", "python3-tiuvrokk", "tiuvrokk", "whl"])
    return [os.path.join(folder, "one", name) for name in names]


def from_an_archive(folder: str) -> None:
    """A tree that git knows nothing of, and one of somebody else's, has the same files; its packages have a version, and a time."""
    sys.path.insert(0, f"{TOP}/tools")
    import tree

    top = os.path.join(folder, "tree")
    for name in tree.kept_files():
        os.makedirs(os.path.dirname(f"{top}/{name}"), exist_ok=True)
        shutil.copy(f"{TOP}/{name}", f"{top}/{name}")
    for name in ("crates/am_record/out/x", "out/x", "rust/target/x"):
        os.makedirs(os.path.dirname(f"{top}/{name}"), exist_ok=True)
        open(f"{top}/{name}", "w").close()
    asked = "import sys; sys.path.insert(0, 'tools'); import tree, layout; print(*tree.kept_files(), layout.revision(), sep='\\n')"
    files = sorted(tree.kept_files())
    wanted("the files of an archive", run([sys.executable, "-B", "-c", asked], folder=top).splitlines(), [*files, tree.text_of("VERSION").strip()])
    if os.geteuid() or shutil.which("git") is None:
        return
    for words in (["init", "-q"], ["add", "-A"]):
        run(["git", "-C", top, *words])
    subprocess.run(["chown", "-R", "nobody", top], check=True)
    wanted("the files of somebody else's", sorted(run([sys.executable, "-B", "-c", asked], folder=top).splitlines()[:-1]), files)


def first_session() -> Dict[str, str]:
    """The README's first session: what is typed, and what is answered."""
    with open(f"{TOP}/README.md", encoding="utf-8") as file:
        block = file.read().partition("    $ ./amserve alone --auto 0\n")[2].partition("\n\n")[0]
    lines = [line.strip() for line in block.split("\n")]
    return {"typed": "\n".join(lines[::2]) + "\n", "answers": "\n".join(lines[1::2]) + "\n"}


def check_programs(bin_folder: str) -> None:
    """The programs, with no toolchain on the path."""
    path = os.path.join(bin_folder, "tools")
    os.mkdir(path)
    for name in ("bash", "sh", "dirname", "readlink", "python3", "env"):
        os.symlink(shutil.which(name) or fail(f"no {name} here"), os.path.join(path, name))
    session = first_session()
    answers = run([f"{bin_folder}/amserve", "alone", "--auto", "0"], session["typed"], PATH=path)
    wanted("the README's first session", answers, session["answers"])
    trace = "TRACE 2\nBEGIN | BEGUN 1\nCOMMIT 1 | COMMITTED 1\n"
    wanted("the auditor", run([f"{bin_folder}/amaudit"], trace, PATH=path), "LEGAL 1\n")
    wanted("the shell", run([f"{bin_folder}/amcli"], "ins ant 6\nget ant\n", PATH=path), "OK\nVAL 6\n")
    wanted("a load", run([f"{bin_folder}/amload"], "ant=6\n", PATH=path), "BEGIN\nLOAD ant=6\nCOMMIT\n")
    for name in ("amload", "amdump", "amcli", "amdraw", "amreplica"):
        with open(f"{TOP}/VERSION", encoding="ascii") as file:
            wanted(f"the version of {name}", run([f"{bin_folder}/{name}", "--version"], PATH=path), f"{name} {file.read()}")
    if shutil.which("etcd") and shutil.which("etcdctl"):
        check_replica(f"{bin_folder}/amreplica", f"{bin_folder}/etcd", path)
    else:
        print("package: no etcd here")
    shutil.rmtree(path)


def check_replica(program: str, folder: str, path: str) -> None:
    """A replica with one member of etcd."""
    cluster = Cluster(folder, members=1)
    words, names = [program, *cluster.endpoints], {**os.environ, "PATH": path}
    with subprocess.Popen(words, stdout=subprocess.PIPE, text=True, env=names) as replica:
        try:
            told = (replica.stdout.readline() if replica.stdout else "").split()
            wanted("what a replica writes", told[:1], ["LISTEN"])
            wanted("a replica", Client(int(told[1])).ask("BEGIN", "INS ant 6", "COMMIT"), ["BEGUN 1", "OK", "COMMITTED 1"])
        finally:
            replica.kill()
            cluster.close()
    shutil.rmtree(folder)


def check_library(root: str, pc_folder: str, libraries: str) -> None:
    """Programs in C and C++ are compiled by the flags that pkg-config tells."""
    if not shutil.which("pkg-config") or not shutil.which("cc"):
        print("package: no pkg-config or no cc here")
        return
    flags = run(["pkg-config", "--cflags", "--libs", "tiuvrokk"], PKG_CONFIG_PATH=pc_folder).split()
    compilers = {"embed.c": ["cc"], "embed.cpp": ["c++", "-std=c++17"]}
    for example, compiler in compilers.items():
        if shutil.which(compiler[0]):
            run([*compiler, "-o", f"{root}/embed", f"{TOP}/examples/{example}", *flags])
            wanted(example, run([f"{root}/embed"], LD_LIBRARY_PATH=libraries).partition(",")[0], "loaded 100000")
            os.remove(f"{root}/embed")


def check_debian(packages: List[str], root: str) -> None:
    """The packages unpacked into an empty root, beside one another."""
    names = [it for it in packages if it.endswith(".deb")]
    for name in names:
        run(["dpkg-deb", "-x", name, root])
    listed = [line.split() for name in names for line in run(["dpkg-deb", "-c", name]).splitlines()]
    owners = {words[1] for words in listed}
    wanted("owners of the files", owners, {"root/root"})
    places = [words[5] for words in listed if not words[5].endswith("/")]
    wanted("files that are in two packages", sorted({it for it in places if places.count(it) > 1}), [])
    library = next(it for it in names if re.search("/libtiuvrokk[0-9]+_", it))
    run(["dpkg-deb", "-e", library, f"{root}/control"])
    check_symbols(f"{root}/control/symbols", glob.glob(f"{root}/usr/lib/*/libtiuvrokk.so.*")[0])
    shutil.rmtree(f"{root}/control")
    check_programs(f"{root}/usr/bin")
    libraries = os.path.dirname(glob.glob(f"{root}/usr/lib/*/libtiuvrokk.so")[0])
    check_library(root, f"{libraries}/pkgconfig", libraries)
    example, place = f"{root}/usr/share/doc/python3-tiuvrokk/examples/embed.py", f"{root}/usr/lib/python3/dist-packages"
    out = run(["python3", "-B", example], PYTHONPATH=place, LD_LIBRARY_PATH=libraries)
    wanted("the Python package", out.partition(",")[0], "loaded 100000")
    asked = "from importlib.metadata import distribution; it = distribution('tiuvrokk'); print(it.version, it.read_text('INSTALLER'), end='')"
    with open(f"{TOP}/VERSION", encoding="ascii") as file:
        wanted("what Python knows of it", run(["python3", "-B", "-c", asked], PYTHONPATH=place), f"{file.read().strip()} debian\n")
    for name in ("man1/amserve.1.gz", "man1/amreplica.1.gz", "man3/tiuvrokk.3.gz", "man7/tiuvrokk-protocol.7.gz"):
        wanted(f"the manual {name}", os.path.exists(f"{root}/usr/share/man/{name}"), True)
    check_units(root)
    check_settings(next(it for it in names if "/tiuvrokk_" in it), root)
    check_removal(names, root)


def check_symbols(path: str, library: str) -> None:
    """Each call of the library has the version since which it is there, and nothing else has one."""
    with open(path, encoding="utf-8") as file:
        head, *rest = [line.split() for line in file]
    wanted("whose symbols they are", (head[0], head[2]), (os.path.basename(library), "#MINVER#"))
    calls = [line.split()[2] for line in run(["nm", "-D", "--defined-only", library]).splitlines()]
    wanted("the symbols", [name for name, _ in rest], sorted(f"{it}@Base" for it in calls))
    with open(f"{TOP}/VERSION", encoding="ascii") as file:
        newest = numbers(file.read())
    wanted("symbols of a version to come", [name for name, since in rest if numbers(since) > newest], [])


def numbers(version: str) -> List[int]:
    """A version, to be compared."""
    return [int(it) for it in version.split(".")]


def check_units(root: str) -> None:
    """systemd finds nothing in the units, but for the place of the programs."""
    if not shutil.which("systemd-analyze"):
        print("package: no systemd-analyze here")
        return
    for path in glob.glob(f"{root}/usr/lib/systemd/system/*"):
        copy = os.path.join(root, os.path.basename(path))
        with open(path, encoding="utf-8") as file, open(copy, "w", encoding="utf-8") as made:
            made.write(file.read().replace("ExecStart=", f"ExecStart={root}"))
        words = ["systemd-analyze", "verify", "--man=no", copy]
        ran = subprocess.run(words, capture_output=True, text=True, timeout=LIMIT, check=False)
        wanted(f"what systemd says of {path}", [it for it in ran.stderr.splitlines() if "am" in it], [])
        os.remove(copy)


def check_settings(package: str, root: str) -> None:
    """The file that the unit takes its words from is the administrator's, and with these words a server listens at a socket, in
    a folder that the unit has."""
    path = "/etc/default/amserve"
    run(["dpkg-deb", "-e", package, f"{root}/control"])
    with open(f"{root}/control/conffiles", encoding="ascii") as file:
        wanted("what dpkg knows to be an administrator's", file.read(), f"{path}\n")
    shutil.rmtree(f"{root}/control")
    with open(f"{root}/usr/lib/systemd/system/amserve.service", encoding="utf-8") as file:
        unit = file.read().splitlines()
    asked = [f"EnvironmentFile={path}", "ExecStart=/usr/bin/amserve listen --stay $AMSERVE_WORDS", "RuntimeDirectory=amserve", "StateDirectory=amserve"]
    wanted("lines of the unit", [it for it in asked if it not in unit], [])
    with open(f"{root}{path}", encoding="utf-8") as file:
        words = next(line for line in file if line.startswith("AMSERVE_WORDS=")).partition("=")[2].strip().strip('"').split()
    place = f"{root}/door"
    wanted("where it listens", words[:2], ["--socket", "/run/amserve/socket"])
    with subprocess.Popen([f"{root}/usr/bin/amserve", "listen", "--stay", "--socket", place, *words[2:]], stdout=subprocess.PIPE, text=True) as server:
        wanted("the server of these words", server.stdout.readline() if server.stdout else "", f"LISTEN {place}\n")
        with socket.socket(socket.AF_UNIX) as client:
            client.settimeout(LIMIT)
            client.connect(place)
            client.sendall(b"BEGIN\nINS ant 6\nCOMMIT\nQUIT\n")
            wanted("its answers", client.makefile("r", encoding="ascii").read(), "BEGUN 1\nOK\nCOMMITTED 1\nBYE\n")
        server.terminate()
        wanted("its end", (server.communicate(timeout=LIMIT)[0].split()[0], server.returncode, os.path.exists(place)), ("CLOSED", 0, False))


def check_removal(names: List[str], root: str) -> None:
    """dpkg installs the packages into a root of its own and removes them again, where this user may; nothing is left."""
    if os.geteuid() or not shutil.which("dpkg"):
        print("package: not root, or no dpkg here: nothing is installed and removed again")
        return
    other = f"{root}.other"
    os.makedirs(f"{other}/var/lib/dpkg/info")
    for name in ("status", "available"):
        open(f"{other}/var/lib/dpkg/{name}", "w", encoding="ascii").close()
    before = files_below(other)
    words = ["dpkg", f"--root={other}", "--force-depends", "--force-script-chrootless", "--no-triggers"]
    begun = time.monotonic()
    run([*words, "--install", *names])
    wanted("a first answer", run([f"{other}/usr/bin/amserve", "alone"], "BEGIN\n"), "BEGUN 1\n")
    print(f"package: {time.monotonic() - begun:.1f} s from dpkg --install to the first answer")
    run([*words, "--purge", *(os.path.basename(it).partition("_")[0] for it in names)])
    wanted("what is left once all is removed", files_below(other) - before, set())


def files_below(root: str) -> "set[str]":
    """All files and folders, but for those that dpkg keeps for itself."""
    found = {os.path.relpath(it, root) for it in glob.glob(f"{root}/**", recursive=True)}
    return {it for it in found if not it.startswith("var")}


def check_wheel(wheel: str, sources: str, library: str, root: str) -> None:
    """The wheel, and the sources with a library, of an archive too, in an environment of their own, without a network."""
    # (the pip of this Python serves: one of its own would take most of the test's time)
    pip = [sys.executable, "-m", "pip", "--python", f"{root}/bin/python", "--disable-pip-version-check"]
    for words in ([sys.executable, "-m", "venv", "--without-pip", root], [*pip, "--version"]):
        if subprocess.run(words, capture_output=True, timeout=LIMIT, check=False).returncode:
            print("package: no environment can be made here, or no pip serves it")
            return
    for given in (wheel, f"{TOP}/python", sources):
        run([*pip, "install", "--no-index", "--no-cache-dir", given], TIUVROKK_LIBRARY=library)
        out = run([f"{root}/bin/python", f"{TOP}/examples/embed.py"], folder=root, TIUVROKK_LIBRARY="")
        wanted(f"the package of {given}", out.partition(",")[0], "loaded 100000")
        run([*pip, "uninstall", "--yes", "tiuvrokk"])
        wanted(f"what is left of {given}", glob.glob(f"{root}/lib/*/site-packages/tiuvrokk*"), [])


def check_archive(archive: str, root: str) -> None:
    """The .tar.gz, unpacked anywhere."""
    os.mkdir(root)
    run(["tar", "-xf", archive, "-C", root])
    place = glob.glob(f"{root}/*")[0]
    check_programs(f"{place}/bin")
    check_library(root, f"{place}/lib/pkgconfig", f"{place}/lib")


def check_installation(root: str, given: List[str]) -> None:
    """./install below a prefix, and what it refuses."""
    run([f"{TOP}/install", *given, "/installed"], DESTDIR=root)
    wanted("what is installed", sorted(os.listdir(f"{root}/installed")), ["bin", "include", "lib", "share"])
    check_programs(f"{root}/installed/bin")
    with open(f"{root}/installed/share/own", "w", encoding="utf-8"):
        pass
    run([f"{TOP}/install", "--remove", "/installed"], DESTDIR=root)
    wanted("what is left of an installation", [path for path, _, _ in os.walk(f"{root}/installed")], [f"{root}/installed", f"{root}/installed/share"])
    ran = subprocess.run([f"{TOP}/install", "--remove", f"{root}/installed"], capture_output=True, text=True, timeout=LIMIT, check=False)
    wanted("nothing to remove", (ran.returncode, ran.stderr.count("\n")), (1, 1))
    for program in ("install", "install-library"):
        ran = subprocess.run([f"{TOP}/{program}", f"{root}/a b"], capture_output=True, text=True, timeout=LIMIT, check=False)
        found = (ran.returncode, "blank" in ran.stderr, os.path.exists(f"{root}/a b"))
        wanted(f"{program} with a blank", found, (2, True, False))
        wanted(f"help of {program}", "PREFIX" in run([f"{TOP}/{program}", "--help"]), True)
        bare = {"PATH": "/usr/bin:/bin"}
        words = [f"{TOP}/{program}", f"{root}/bare"]
        ran = subprocess.run(words, capture_output=True, text=True, env=bare, timeout=LIMIT, check=False)
        wanted(f"{program} without rt", (ran.returncode, ran.stderr), (1, f"{program}: rt is not on the path\n"))
        wanted(f"what {program} leaves behind", os.path.exists(f"{root}/bare"), False)


def check_lint(packages: List[str]) -> None:
    """lintian finds nothing."""
    if not shutil.which("lintian"):
        print("package: no lintian here")
        return
    names = [it for it in packages if it.endswith(".deb")]
    ran = subprocess.run(["lintian", "--allow-root", *names], capture_output=True, text=True, timeout=LIMIT, check=False)
    wanted("what lintian says", (ran.returncode, ran.stdout), (0, ""))


def main() -> None:
    if not shutil.which("dpkg-deb"):
        print("package: no dpkg-deb here")
        return
    given = sys.argv[1:]
    with tempfile.TemporaryDirectory() as folder:
        from_an_archive(folder)
        packages = made(folder, given)
        check_debian(packages, os.path.join(folder, "root"))
        check_lint(packages)
        library = glob.glob(f"{folder}/root/usr/lib/*/libtiuvrokk.so.*")[0]
        kinds = (r"\.whl$", r"/tiuvrokk-[0-9.]+\.tar\.gz$", r"-linux-[^/]*\.tar\.gz$")
        wheel, sources, archive = (next(it for it in packages if re.search(kind, it)) for kind in kinds)
        check_wheel(wheel, sources, library, os.path.join(folder, "environment"))
        check_archive(archive, os.path.join(folder, "archive"))
        check_installation(folder, given)
    print("package: all as expected")


if __name__ == "__main__":
    main()
