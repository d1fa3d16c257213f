"""The crates of the repository: what each rests on, and which functions other crates can call."""

from pathlib import Path

from source import Crate, Reader

# the library for C and Rust, and the crate that exports its functions: thin calls of the library, each under the name and the contract of what it calls
LIBRARY, EXPORTS = "rtcm2", "rtcm2_c"


def read_crate(root, name):
    """The crate of a library or a program."""
    folder = Path(root) / "crates" / name
    crate = Crate(name, folder)
    file = folder / "src/lib.rt"
    Reader(crate, file if file.exists() else folder / "src/main.rt", []).items()
    return crate


def of_tests(name):
    """Whether a crate is of the tests: a program that prints worked cases, or what such programs share."""
    return name.startswith("test_")


def is_library(root, name):
    """Whether a crate is the package's own code and no program."""
    return not of_tests(name) and (Path(root) / "crates" / name / "src/lib.rt").exists()


def public_functions(crate, crates):
    """The functions that other crates can call, and what cannot be said of them. A method of an `impl` block may be reached through its type."""
    found, amiss = [], []
    exported = [exported_item(export, crate, crates) for export in crate.exports]
    for export, item in zip(crate.exports, exported):
        if item is None:
            amiss.append(f"{export.file}: `pub use` of {'::'.join(export.path)} is neither a function nor a type of a crate that is read")
    for function in crate.functions:
        module = "::".join(function.modules)
        if function.owner and function.public and function.owner not in crate.types:
            amiss.append(f"{function.file}:{function.first}: {function.path} is a method of a type that the crate does not declare by this name")
        if function in exported or function.public and (function.owner or not module or module in crate.public_modules):
            found.append(function)
        elif function.public:
            amiss.append(f"{function.file}:{function.first}: {function.path} is `pub` in a private module: `pub(crate)`, or the module `pub`")
    return found, amiss


def exported_item(export, crate, crates):
    """The function or the type that a `pub use` names: from its module on, from the crate's root, or of another crate."""
    path = export.path[1:] if export.path[0] in ("crate", "self") else export.path
    for place in (export.modules + path, path):
        for function in crate.functions:
            if not function.owner and function.path.split("::") == place:
                return function
    home = crates.get(export.path[0], crate)
    names = [function for function in home.functions if home is not crate and function.path.split("::") == path[1:]]
    return names[0] if names else home.types.get(path[-1])


def exported_functions(root):
    """The functions that a program in another language can call: of the crate of exports, or, where there is none, of the library."""
    exports = (Path(root) / "crates" / EXPORTS).exists()
    return [function for function in read_crate(root, EXPORTS if exports else LIBRARY).functions if function.exported]


def named(root):
    """The crates in the order of crates.txt, and the libraries that each names, of the repository and of the kit. Words between a crate's name and
    the `:` say how it is built."""
    lines = (line.split("#")[0].strip() for line in (Path(root) / "crates.txt").read_text().splitlines())
    return {line.split()[0].rstrip(":"): line.split(":")[1].split() for line in lines if line}


def below(root):
    """The same crates, and the crates of the repository that each names."""
    libraries = named(root)
    return {name: [other for other in others if other in libraries] for name, others in libraries.items()}


def depends_on(root, crate):
    """Every crate of the repository that a crate rests on, directly or not."""
    others, found, left = below(root), [], [crate]
    while left:
        for other in others[left.pop()]:
            if other not in found:
                found.append(other)
                left.append(other)
    return found
