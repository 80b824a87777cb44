"""The library as tools/install leaves it, by README's lines: its first lookup, compiled as C and as C++, linked with the shared
object and with the archive; and that the two, slc1.h and slc1.pc have the same calls and the same version."""

import os
import re
import shlex
import subprocess
import sys
import tempfile

sys.path += [sys.path[0] + "/../docs", sys.path[0] + "/../second"]

import readme
import second
from images import record_of

BENCH = second.Options(12, 20, 512, 1, 0, 2)
STRICT = ("-Wall", "-Wextra", "-Werror")
COMPILERS = {"C": ("gcc", "-std=c11", "-pedantic", *STRICT), "C++": ("g++", "-std=c++11", "-x", "c++", *STRICT)}


def same(what, found, wanted):
    if found != wanted:
        sys.exit(f"tools/install: {what}\nfound:  {found}\nwanted: {wanted}")


def record(certificate):
    serial, revision, gain = certificate.split(",")
    return record_of(BENCH, True, serial.encode(), int(revision), gain.encode())


def cache():
    """The demo's certificates in an image, by the second program."""
    image = bytearray(second.total_size(BENCH))
    answers = [second.create(image, BENCH), second.begin(image, BENCH)]
    records = [record(row) for row in readme.read("examples", "certificates.csv").split()[1:]]
    answers += [second.commit(image, BENCH, b"".join(records[at:at + 64])) for at in range(0, len(records), 64)]
    answers.append(second.checkpoint(image, BENCH))
    same("the second program makes no cache", set(answers), {0})
    return image


class Installed:
    """What README's lines leave: the library below home/slc1, and first beside first.c in home."""

    def __init__(self, home):
        self.home, self.prefix = home, os.path.join(home, "slc1")
        self.lib = os.path.join(self.prefix, "lib")
        paths = {"PKG_CONFIG_PATH": os.path.join(self.lib, "pkgconfig"), "LD_LIBRARY_PATH": "", "DESTDIR": ""}
        self.environment = {**os.environ, "HOME": home, **paths}
        readme.save_first(home)
        self.run("sh", "-euc", readme.on_first(self.path("first"), readme.block("sh", "tools/install")))

    def path(self, name):
        return os.path.join(self.home, name)

    def run(self, *words, **variables):
        return readme.run(*words, env={**self.environment, **variables})

    def asked(self, *words):
        return shlex.split(self.run("pkg-config", *words, "slc1"))

    def listed(self, *words):
        """The names that nm has for a file."""
        return set(re.findall(r"^(\S+) [A-Za-z] ", self.run("nm", "--format=posix", *words), re.M))

    def entries(self, file, kind):
        """The entries of a kind in a file's dynamic section."""
        return re.findall(rf"\({kind}\).*\[(.*)\]", self.run("readelf", "-d", file))

    def version(self):
        """The version of slc1.h, as a program prints it."""
        with open(self.path("version.c"), "w") as file:
            file.write("#include <stdio.h>\n#include <slc1.h>\nint main(void)\n{\n    return puts(SLC1_VERSION) < 0;\n}\n")
        self.run(*COMPILERS["C"], *self.asked("--cflags"), self.path("version.c"), "-o", self.path("version"))
        return self.run(self.path("version")).strip()

    def declared(self):
        """The calls that slc1.h declares and does not define, as the compiler reads it: NC is its word for these."""
        self.run("gcc", "-fsyntax-only", "-aux-info", self.path("calls"), os.path.join(self.prefix, "include", "slc1.h"))
        with open(self.path("calls")) as file:
            return set(re.findall(r"slc1\.h:\d+:NC \*/ extern .*?(\w+) \(", file.read()))


def names(installed):
    """Version, SONAME and symbols. Hands back the SONAME."""
    version, so = installed.version(), os.path.join(installed.lib, "libslc1.so")
    name = "libslc1.so." + version.split(".")[0]
    same("the version of slc1.pc is not that of slc1.h", installed.asked("--modversion"), [version])
    same("the SONAME", installed.entries(so, "SONAME"), [name])
    same("the file of the shared object", os.path.realpath(so), os.path.realpath(installed.lib) + "/libslc1.so." + version)
    calls = installed.declared()
    same("slc1.h declares no call", bool(calls), True)
    for kind, file in (("-D", so), ("-g", os.path.join(installed.lib, "libslc1.a"))):
        brought = installed.listed(kind, "--defined-only", file)
        same(f"names that {file} has and slc1.h does not declare", sorted(brought - calls), [])
        same(f"calls that slc1.h declares and {file} does not have", sorted(calls - brought), [])
    print(f"version {version}, SONAME {name}, {len(calls)} calls in the header, the shared object and the archive")
    return name


def lookups(installed, name):
    """README's first lookup by each compiler and each kind of library, on an image of the second program's."""
    with open(installed.path("cache.slc1"), "wb") as file:
        file.write(cache())
    command, shown = re.search(r"^\$ (\./first .*)\n((?:(?!\$ ).*\n)*)", readme.FIRST, re.M).groups()
    command = command.replace("target/demo/cache.slc1", shlex.quote(installed.path("cache.slc1")))
    source = [*installed.asked("--cflags"), installed.path("first.c"), "-x", "none"]
    libraries = {name: installed.asked("--libs"), "libslc1.a": [os.path.join(installed.lib, "libslc1.a")]}
    built = [(installed.path("first"), name)]
    for language, compiler in COMPILERS.items():
        for library, words in libraries.items():
            program = installed.path(f"{language} with {library}")
            installed.run(*compiler, *source, *words, "-o", program)
            built.append((program, library))
    for program, library in built:
        shared = library == name
        needed = [entry for entry in installed.entries(program, "NEEDED") if "slc1" in entry]
        same(f"the shared objects that {program} needs", needed, [name] if shared else [])
        path = installed.lib if shared else ""
        same(f"what {program} prints", installed.run("sh", "-c", readme.on_first(program, command), LD_LIBRARY_PATH=path), shown)
    print(f"README's first lookup, built by README's line and in {len(built) - 1} other ways, prints what is shown")


def packaged(installed):
    """Below DESTDIR the same files stand, and speak of PREFIX."""
    package = installed.path("package")
    installed.run("tools/install", "/usr", DESTDIR=package)
    files = [sorted(os.path.relpath(os.path.join(at, name), root) for at, _, inside in os.walk(root) for name in inside)
             for root in (package + "/usr", installed.prefix)]
    same("the files below DESTDIR", *files)
    flags = installed.run("pkg-config", "--variable=prefix", "slc1", PKG_CONFIG_PATH=package + "/usr/lib/pkgconfig")
    same("the prefix of a package", flags.strip(), "/usr")


def main():
    for words in ((), ("",), ("--help",), ("a", "b"), ("a b",)):
        ran = subprocess.run([os.path.join(readme.ROOT, "tools", "install"), *words], stderr=subprocess.PIPE, text=True)
        same(f"called with {words}", (ran.returncode, ran.stderr.split()[:1]), (2, ["usage:"]))
    with tempfile.TemporaryDirectory() as home:
        installed = Installed(home)
        lookups(installed, names(installed))
        packaged(installed)


if __name__ == "__main__":
    main()
