#!/usr/bin/env python3
"""Makes the tarball of `dist/make` in a temporary folder, and tries each part of it as a user would who has no toolchain.

    checks/dist.py [PROGRAM] [--library FOLDER]

Two calls have to make the same tarball. The program runs with an empty environment, from where it is unpacked, from where it is installed, and, for
root, in a folder made the root of the system that has the C library alone, and with an empty folder over /opt. A C program is built with the flags of
pkg-config and by CMake, each with the archive and with the shared library; the wheel is installed into a new environment of Python, and an example is run;
the manual page is shown; and the completions are asked. What needs a tool that is not there is skipped, and that is said. The last line counts.
"""
import filecmp
import os
import re
import shutil
import subprocess
import sys
import tempfile

from calling import TOPO, add_library, reader_of, words_of

ROOT = os.path.dirname(os.path.dirname(os.path.abspath(__file__)))
MESH, STEPS = "v 0 0 0\nv 40 0 0\nv 0 40 0\nv 0 0 40\nf 1 3 2\nf 1 2 4\nf 2 3 4\nf 1 4 3\n", "shift all 1 2 3\nstep\nsplit 45\nsave\n"
LOG = "topo log 2\nmesh 0 4 4\nstep 1\nmove 1 1 2 3\nmove 2 1 2 3\nmove 3 1 2 3\nmove 4 1 2 3\nmoved whole\npass split 45\n"
EXAMPLE_LOG = "step 1\nmove 1 1 2 3\nmove 2 1 2 3\nmove 3 1 2 3\nmove 4 1 2 3\nmoved whole\n"
CMAKE = """cmake_minimum_required(VERSION 3.13)
project(user C)
find_package(topo {version} REQUIRED)
add_executable(user user.c)
target_link_libraries(user {target})
"""
CHECKS = []


def told(what, good):
    """Notes a check that passed or failed, or, where `good` is None, was skipped."""
    CHECKS.append(good)
    print({True: "ok      ", False: "FAILED  ", None: "skipped "}[good] + what, flush=True)
    return good


def ran(*words, **more):
    """A command that has ended: its status, and what it wrote to standard output and to standard error."""
    ended = subprocess.run([str(word) for word in words], stdout=subprocess.PIPE, stderr=subprocess.PIPE, stdin=subprocess.DEVNULL, timeout=1800, **more)
    return ended.returncode, ended.stdout.decode(errors="replace"), ended.stderr.decode(errors="replace")


def has(*tools):
    lacking = [tool for tool in tools if not shutil.which(tool)]
    return told(f"what needs {', '.join(lacking)}", None) is not None if lacking else True


def job_in(folder):
    for name, text in (("mesh.obj", MESH), ("steps.txt", STEPS)):
        with open(os.path.join(folder, name), "w") as out:
            out.write(text)


def is_job_done(ended, folder):
    return ended[0] == 0 and ended[1].startswith(LOG) and ended[1].endswith("end\n") and os.path.exists(os.path.join(folder, "t-000001.obj"))


def tracked(program, folder):
    """Whether a program does the job in a folder, with an empty environment."""
    job_in(folder)
    done = is_job_done(ran(program, "track", "mesh.obj", "steps.txt", "t", cwd=folder, env={}), folder)
    for name in ("t-000000.obj", "t-000001.obj"):
        if os.path.exists(os.path.join(folder, name)):
            os.remove(os.path.join(folder, name))
    return done


def made(words, work):
    """The folder that the tarball is unpacked to, and its version, or None."""
    tarballs = []
    for turn in ("one", "two"):
        status, out, err = ran(os.path.join(ROOT, "dist/make"), os.path.join(work, turn), *words)
        if not told(f"dist/make {err}".strip(), status == 0):
            return None
        tarballs.append(out.strip())
    told("two calls make the same tarball", filecmp.cmp(*tarballs, shallow=False))
    told("dist/make without a program ends with 1", ran(os.path.join(ROOT, "dist/make"), os.path.join(work, "three"), "--program", "none")[0] == 1)
    ran("tar", "-xzf", tarballs[0], "-C", work)
    top = os.path.join(work, os.path.basename(tarballs[0])[: -len(".tar.gz")])
    version = re.search(r"topo-(.+?)-x86", os.path.basename(top)).group(1)
    told("the program has the version of the tarball", ran(os.path.join(top, "bin/topo"), "--version")[1] == f"topo {version}\n")
    told("the program runs where it is unpacked", tracked(os.path.join(top, "bin/topo"), work))
    return top, version


def installed(top, work):
    """The folder that it is installed to."""
    prefix = os.path.join(work, "a prefix")
    told("install without a folder ends with 2", ran(os.path.join(top, "install"))[0] == 2)
    told("install ends with 0", ran(os.path.join(top, "install"), prefix)[0] == 0)
    told("the program runs where it is installed", tracked(os.path.join(prefix, "bin/topo"), work))
    return prefix


def needed(path):
    """The files that a program loads: the C library and the loader."""
    return [word for word in ran("ldd", path)[1].split() if word.startswith("/")]


def bare(top, work):
    """The program and the shared library with nothing of this machine but the C library."""
    for name in ("bin/topo", "lib/libtopo.so"):
        files = needed(os.path.join(top, name))
        told(f"{name} needs the C library alone", all(re.fullmatch(r"libc\.so\.6|ld-linux-x86-64\.so\.2", os.path.basename(file)) for file in files))
    root = os.path.join(work, "root")
    for file in needed(os.path.join(top, "bin/topo")):
        os.makedirs(root + os.path.dirname(file), exist_ok=True)
        shutil.copy(os.path.realpath(file), root + file)
    shutil.copy(os.path.join(top, "bin/topo"), root)
    job_in(root)
    if os.geteuid() != 0 or not has("chroot", "unshare"):
        told("the program in a bare root: for root alone", None)
        return
    told("the program runs in a root that has the C library alone", is_job_done(ran("chroot", root, "/topo", "track", "mesh.obj", "steps.txt", "t"), root))
    hidden = ran("unshare", "-m", "sh", "-c", 'mount -t tmpfs none /opt && ls /opt && exec "$0" try 2 7', os.path.join(top, "bin/topo"))
    told("the program runs with an empty folder over /opt", hidden[0] == 0 and hidden[1].startswith("try 2 7\n"))


def with_pkg_config(prefix, version, work):
    if not has("gcc", "pkg-config"):
        return
    source, paths = os.path.join(ROOT, "library/example.c"), {**os.environ, "PKG_CONFIG_PATH": os.path.join(prefix, "lib/pkgconfig")}
    told("topo.pc has the version", ran("pkg-config", "--modversion", "topo", env=paths)[1].strip() == version)
    flags = ran("pkg-config", "--cflags", "--libs", "topo", env=paths)[1].replace("\\ ", "\0").split()
    flags = [flag.replace("\0", " ") for flag in flags]
    archive = ran("pkg-config", "--variable=archive", "topo", env=paths)[1].strip().replace("\\ ", " ")
    for name, words in (("shared", flags), ("all-static", [*flags, "-static"]), ("archive", [*flags[:1], archive])):
        user = os.path.join(work, f"user-{name}")
        built = ran("gcc", "-O1", source, *words, "-o", user)
        loaded = {"LD_LIBRARY_PATH": os.path.join(prefix, "lib")} if name == "shared" else {}
        told(f"gcc with pkg-config, {name} {built[2]}".strip(), built[0] == 0 and ran(user, env=loaded)[1] == EXAMPLE_LOG)
    told("the shared one loads libtopo.so", "libtopo.so" in ran("ldd", os.path.join(work, "user-shared"))[1])


def with_cmake(prefix, version, work):
    if not has("cmake", "gcc"):
        return
    cases = [(version, "topo::topo", []), (version, "topo::topo", ["-DBUILD_SHARED_LIBS=ON"]), ("", "topo::static", []), ("9.0", "topo::topo", [])]
    for number, (wanted, target, words) in enumerate(cases):
        source = os.path.join(work, f"cmake-{number}")
        os.makedirs(source)
        shutil.copy(os.path.join(ROOT, "library/example.c"), os.path.join(source, "user.c"))
        with open(os.path.join(source, "CMakeLists.txt"), "w") as out:
            out.write(CMAKE.format(version=wanted, target=target))
        set_up = ran("cmake", "-S", source, "-B", f"{source}/build", f"-DCMAKE_PREFIX_PATH={prefix}", *words)
        if wanted == "9.0":
            told("CMake refuses a version that is not there", set_up[0] != 0 and "9.0" in set_up[2])
            continue
        built = ran("cmake", "--build", f"{source}/build")
        told(f"CMake with {' '.join([target, *words])}", set_up[0] == built[0] == 0 and ran(f"{source}/build/user")[1] == EXAMPLE_LOG)


def with_python(top, version, work):
    """The wheel, in a new environment that has neither numpy nor the repository."""
    wheel, new = next(name for name in os.listdir(top) if name.endswith(".whl")), os.path.join(work, "python")
    told("a new environment of Python", ran(sys.executable, "-m", "venv", "--without-pip", new)[0] == 0)
    python = os.path.join(new, "bin/python3")
    installed = ran(sys.executable, "-m", "pip", "--python", python, "install", "--no-index", os.path.join(top, wheel))
    told("pip installs the wheel" if installed[0] == 0 else f"pip installs the wheel: {installed[2][-300:]}", installed[0] == 0)
    env = {name: value for name, value in os.environ.items() if name not in ("TOPO_LIBRARY", "PYTHONPATH")}
    found = ran(python, "-c", "import importlib.metadata as m, topo; print(m.version('topo'), topo.__file__)", cwd=work, env=env)[1].split(" ", 1)
    told("the module has the version, and is the wheel's", found[0] == version and found[1].startswith(new))
    frames = os.path.join(work, "frames")
    os.makedirs(frames)
    droplet = ran(python, os.path.join(top, "share/topo/examples/library/droplet.py"), frames, 1, cwd=work, env=env)
    told("examples/library/droplet.py runs with it", droplet[0] == 0 and sorted(os.listdir(frames)) == ["frame_000.obj", "frame_001.obj"])


def manual_page(prefix, commands):
    if not has("man"):
        return
    page = os.path.join(prefix, "share/man/man1/topo.1")
    status, text, err = ran("man", "--warnings", "-l", page, env={**os.environ, "MANWIDTH": "100", "LC_ALL": "C.UTF-8", "MAN_KEEP_STDERR": "1"})
    titles = [line.strip() for line in text.split("\n") if re.fullmatch(r" {3}\w+", line)]
    told(f"the manual page is shown with no warning {err}".strip(), status == 0 and not err and "EXIT STATUS" in text)
    told("the manual page has files and examples", all(f"\n{title}\n" in text for title in ("FILES", "EXAMPLES")) and "> log.txt" in text)
    told("the manual page has each command", titles == commands and "self-intersections" in text)


def completions(prefix, commands):
    script = 'source "$1"; shift; COMP_WORDS=("$@"); COMP_CWORD=$(($# - 1)); compopt() { :; }; _topo; echo "${COMPREPLY[@]}"'
    path = os.path.join(prefix, "share/bash-completion/completions/topo")
    asked = lambda *words: ran("bash", "-c", script, "bash", path, "topo", *words)[1].split()
    if has("bash"):
        told("bash completes each command", asked("") == [*commands, "--help", "--version"] and asked("tr") == ["track", "try"])
        told("bash completes options and values", asked("replay", "--o") == ["--only"] and asked("track", "--decimals", "") == list("0123456"))
    if has("zsh"):
        stubs = '_describe() { print -l -- $listed }; _arguments() { print -l -- "$@" }; words=(topo $2 ""); CURRENT=$3; source $1'
        path = os.path.join(prefix, "share/zsh/site-functions/_topo")
        told("zsh completes each command", [line.split(":")[0] for line in ran("zsh", "-fc", stubs, "zsh", path, "", 2)[1].split("\n")[: len(commands)]] == commands)
        told("zsh completes options", "--only[" in ran("zsh", "-fc", stubs, "zsh", path, "replay", 3)[1])
    if has("fish"):
        script = "source $argv[1]; complete -C $argv[2]"
        path = os.path.join(prefix, "share/fish/vendor_completions.d/topo.fish")
        names = [line.split("\t")[0] for line in ran("fish", "-N", "-c", script, path, "topo ")[1].split("\n")]
        told("fish completes each command", set(commands) <= set(names))
        told("fish completes options", "--only" in ran("fish", "-N", "-c", script, path, "topo replay --o")[1])


def main():
    reader = reader_of(__doc__)
    add_library(reader)
    given = words_of(reader)
    words = ["--library", given.library, *([] if given.program == TOPO else ["--program", given.program])]
    with tempfile.TemporaryDirectory() as work:
        found = made(words, work)
        if found:
            top, version = found
            commands = re.findall(r"(?m)^(?:usage:|      ) topo (\w+) [A-Z]", ran(os.path.join(top, "bin/topo"), "--help")[1])
            bare(top, work)
            prefix = installed(top, work)
            with_pkg_config(prefix, version, work)
            with_cmake(prefix, version, work)
            manual_page(prefix, commands)
            completions(prefix, commands)
            with_python(top, version, work)
    passed, failed, skipped = (CHECKS.count(it) for it in (True, False, None))
    print(f"{passed} passed, {failed} failed, {skipped} skipped")
    sys.exit(1 if failed else 0)


if __name__ == "__main__":
    main()
