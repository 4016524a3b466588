"""How a shared and a static library are made of what the toolchain compiles, and of the part in plain C: by its own compiler,
linker and archiver; and what stands beside them for who links with them."""
import os
import pathlib
import re

TOP = pathlib.Path(__file__).resolve().parent.parent
HEADER = TOP / "include/misteluk.h"
# The part in C, which nobody proves; and what it takes of the C library's headers, which the toolchain doesn't have.
PLAIN, OF_PLAIN = TOP / "c/arrow.c", TOP / "include/misteluk_arrow.h"
HEADERS = {"stddef.h": "typedef __SIZE_TYPE__ size_t;\n#define NULL ((void *)0)\n",
           "stdint.h": "".join(f"typedef __{it.upper()}_TYPE__ {it}_t;\n" for it in ("uint8", "uint32", "uint64", "int64"))
           + "#define UINT32_MAX 0xffffffffu\n#define UINT64_MAX 0xffffffffffffffffu\n",
           "stdlib.h": "void *malloc(size_t), *calloc(size_t, size_t);\nvoid free(void *);\n",
           "errno.h": "#define ENOMEM 12\n"}
CLANG = """--target=x86_64-unknown-linux-gnu -march=x86-64 --no-default-config -nostdinc -std=c11 -O1 -fPIC -ffunction-sections
    -Wall -Wextra -Werror -c""".split()
# A function of the crate that C may call, as `rt try` lowers it: what it returns, its name within, its own, its parameters.
EXPORTED = re.compile(r'(?m)^define internal (?:noundef )?(\w+) (@"misteluk_c::(?:\w+::)*(misteluk_\w+)")\((.*?)\)')
SHARED = """-shared --gc-sections --no-undefined --no-allow-shlib-undefined --build-id=none -z now -z relro -z noexecstack
""".split()
# What the shared library exports: the functions of the header, and nothing else, in a version of the interface's number.
EXPORTS = "MISTELUK_{number} {{ global: misteluk_*; local: *; }};\n"
PACKAGE = """prefix=${{pcfiledir}}/{prefix}

Name: misteluk
Description: A store of a graph that changes in batches, and versions of it that stay as they were
Version: {version}
Cflags: -I${{prefix}}/include
Libs: -L${{prefix}}/{libraries} -lmisteluk
"""


def declared():
    """The functions of the header."""
    plain = re.sub(r"/\*.*?\*/", " ", HEADER.read_text(encoding="utf-8"), flags=re.S)
    return set(re.findall(r"\b(misteluk_\w+)\(", plain))


def number(name):
    """A number that the header defines."""
    return int(re.search(rf"(?m)^#define MISTELUK_{name} (\d+)$", HEADER.read_text(encoding="utf-8"))[1])


def soname():
    """The name by which a program that is linked to the shared library finds it: only one of the same interface has it."""
    return f"libmisteluk.so.{number('INTERFACE')}"


def package(prefix, libraries):
    """What pkg-config reads: from its folder the way to the one that has `include`, and from there to the libraries."""
    version = number("VERSION")
    told = ".".join(map(str, (version // 10_000, version // 100 % 100, version % 100)))
    return PACKAGE.format(prefix=prefix, libraries=libraries, version=told)


def put_beside(library):
    """Writes what stands beside a shared library in a clone: its other name, and what pkg-config reads. The name is that of the
    same file, and no symbolic link: `rt ci` takes none in the repository's folder."""
    folder = library.parent
    other = folder / soname()
    other.unlink(missing_ok=True)
    os.link(library, other)
    (folder / "misteluk.pc").write_text(package(os.path.relpath(TOP, folder), os.path.relpath(folder, TOP)))


def with_exports(text):
    """A lowered program in LLVM's words as a library: each function that C may call gets its own name, which can be seen from
    outside, and `main` can't be. `rt try` lowers what a program or a test reaches, so tests/library has to call each of them."""
    found = EXPORTED.findall(text)
    names = {name for _, _, name, _ in found}
    if names != declared():
        raise RuntimeError(f"the header and what tests/library/calls.txt calls differ in {', '.join(sorted(names ^ declared()))}")
    lines = []
    for result, within, name, parameters in found:
        types = ", ".join(it.split()[0] for it in parameters.split(", ") if it)
        lines.append(f"@{name} = alias {result} ({types}), ptr {within}\n")
    hidden = re.sub(r"(?m)^define (?:dso_local )?(.*@main\()", r"define internal \1", text)
    at = hidden.index("\ndefine ") + 1
    return hidden[:at] + "".join(lines) + hidden[at:]


class Linker:
    """The toolchain's linker and archiver, which `build` runs."""

    def __init__(self, build, kit):
        self.build, self.kit = build, kit
        self.shared, self.static = (build.room / it for it in ("libmisteluk.so", "libmisteluk.a"))

    def plain(self):
        """Compiles the part in C, and returns what that makes, or nothing."""
        made = self.build.room / "plain.o"
        for name, text in HEADERS.items():
            (self.build.room / name).write_text(text)
        words = [f"-I{self.build.room}", f"-I{OF_PLAIN.parent}", "-o", made, PLAIN]
        return self.build.run(f"{self.kit}/toolchain/bin/clang", *CLANG, *words) and made

    def link(self, *objects):
        """Makes both libraries of objects and archives, and returns whether it could. They need the C library alone, and of it
        what the kit's own C asks for: memory."""
        objects = *objects, self.plain()
        if not objects[-1]:
            return False
        bin, lib = f"{self.kit}/toolchain/bin", f"{self.kit}/toolchain/lib"
        memory = f"{self.kit}/c/liblibc_c.a"
        script = [f"create {self.static}", f"addlib {memory}"]
        script += [f"{'addlib' if str(it).endswith('.a') else 'addmod'} {it}" for it in objects] + ["save", "end"]
        (self.build.room / "archive").write_text("\n".join(script) + "\n")
        exports = self.build.room / "exports"
        exports.write_text(EXPORTS.format(number=number("INTERFACE")))
        named = ["-soname", soname(), "--version-script", exports]
        within = ["--whole-archive", *objects, "--no-whole-archive", memory, f"{lib}/libc.so.6"]
        return (self.build.run(f"{bin}/ld.lld", *SHARED, *named, "-o", self.shared, *within)
                and self.build.run(f"{bin}/llvm-ar", "-M", given=self.build.room / "archive")
                and os.path.exists(self.static))
