"""What an installed library has, by its places below a prefix: shared by hosts/build and bin/release."""
import pathlib
import re
import subprocess
import tempfile

HOSTS = pathlib.Path(__file__).resolve().parent
VERSION_IN = HOSTS.parent / "crates/pac_run_options/src/command.rt"
LIBRARIES = {"pac_host": "pacboard", "pac_source": "pacsource"}  # each one's name for pkg-config
SONAME = "libpac_host.so.0"  # the board's
EXPORTS = "{ global: pac_*; local: *; };\n"
HEADERS = ("pacboard.h", "pacsource.h")
PKG_CONFIG = """prefix=${{pcfiledir}}/../..
includedir=${{prefix}}/include
libdir=${{prefix}}/lib

Name: {name}
Description: {account}
Version: {version}
Cflags: -I${{includedir}}
Libs: -L${{libdir}} -l{library}
"""
ACCOUNTS = {"pac_host": "Namco's Pac-Man main board, proved, as a library", "pac_source": "Its assembler and disassembler, proved, as a library"}
CMAKE = """# The libraries, as targets: pacboard::pac_host, the board's, and pacboard::pac_source, the assembler's, are shared, and with _static static.
get_filename_component(_pacboard_prefix "${CMAKE_CURRENT_LIST_DIR}/../../.." ABSOLUTE)
foreach(_pacboard_name pac_host pac_source)
  if(NOT TARGET pacboard::${_pacboard_name})
    add_library(pacboard::${_pacboard_name} SHARED IMPORTED)
    set_target_properties(pacboard::${_pacboard_name} PROPERTIES
      IMPORTED_LOCATION "${_pacboard_prefix}/lib/lib${_pacboard_name}.so" IMPORTED_SONAME "lib${_pacboard_name}.so.0"
      INTERFACE_INCLUDE_DIRECTORIES "${_pacboard_prefix}/include")
    add_library(pacboard::${_pacboard_name}_static STATIC IMPORTED)
    set_target_properties(pacboard::${_pacboard_name}_static PROPERTIES
      IMPORTED_LOCATION "${_pacboard_prefix}/lib/lib${_pacboard_name}.a"
      INTERFACE_INCLUDE_DIRECTORIES "${_pacboard_prefix}/include")
  endif()
endforeach()
unset(_pacboard_name)
unset(_pacboard_prefix)
"""
CMAKE_VERSION = """set(PACKAGE_VERSION "{version}")
set(PACKAGE_VERSION_COMPATIBLE FALSE)
if(PACKAGE_FIND_VERSION VERSION_EQUAL PACKAGE_VERSION OR PACKAGE_FIND_VERSION STREQUAL "")
  set(PACKAGE_VERSION_COMPATIBLE TRUE)
endif()
if(PACKAGE_FIND_VERSION VERSION_EQUAL PACKAGE_VERSION)
  set(PACKAGE_VERSION_EXACT TRUE)
endif()
"""


def version() -> str:
    """The version that the program tells, by its source."""
    found = re.findall(r'\.version\("([0-9.]+)"\)', VERSION_IN.read_text())
    if len(found) != 1:
        raise ValueError(f"{VERSION_IN} has no version")
    return found[0]


def soname(library: str) -> str:
    """The name by which a program looks for a shared library: it changes where an old program can't go on with the new library."""
    return f"lib{library}.so.0"


def links(number: str) -> dict[str, str]:
    """The links beside the shared libraries, whose own names end with their version."""
    found = dict[str, str]()
    for library in LIBRARIES:
        found |= {f"lib/{soname(library)}": f"lib{library}.so.{number}", f"lib/lib{library}.so": soname(library)}
    return found


def shared(archive: pathlib.Path, library: str = "pac_host") -> bytes:
    """The shared library of a static one. It exports the header's calls alone."""
    with tempfile.TemporaryDirectory(prefix="installed-") as room:
        pathlib.Path(room, "library.a").write_bytes(archive.read_bytes())
        pathlib.Path(room, "names").write_text(EXPORTS)
        words = ["cc", "-shared", "-o", "made", f"-Wl,-soname,{soname(library)}", "-Wl,--version-script,names", "-Wl,--build-id=none"]
        words += ["-Wl,--whole-archive", "library.a", "-Wl,--no-whole-archive"]
        subprocess.run(words, cwd=room, check=True)
        subprocess.run(["strip", "made"], cwd=room, check=True)
        return pathlib.Path(room, "made").read_bytes()


def laid(archive: pathlib.Path, number: str) -> dict[str, tuple[bytes, int]]:
    """All files of the libraries, each with its mode: the board's is this archive, and the assembler's is beside it."""
    found = {
        "lib/cmake/pacboard/pacboardConfig.cmake": (CMAKE.encode(), 0o644),
        "lib/cmake/pacboard/pacboardConfigVersion.cmake": (CMAKE_VERSION.format(version=number).encode(), 0o644),
    }
    for library, path in (("pac_host", archive), ("pac_source", archive.with_name("libpac_source.a"))):
        text = PKG_CONFIG.format(name=LIBRARIES[library], account=ACCOUNTS[library], version=number, library=library)
        found[f"lib/lib{library}.a"] = (path.read_bytes(), 0o644)
        found[f"lib/lib{library}.so.{number}"] = (shared(path, library), 0o755)
        found[f"lib/pkgconfig/{LIBRARIES[library]}.pc"] = (text.encode(), 0o644)
    return found | {f"include/{name}": ((HOSTS / name).read_bytes(), 0o644) for name in HEADERS}


def install(archive: pathlib.Path, prefix: pathlib.Path) -> list[str]:
    """Lays the libraries below a prefix, each file as a whole, and answers the names of what is there then."""
    number = version()
    files = laid(archive, number)
    for name, (content, mode) in files.items():
        path = prefix / name
        path.parent.mkdir(parents=True, exist_ok=True)
        beside = path.with_name(f".{path.name}.new")
        beside.write_bytes(content)
        beside.chmod(mode)
        beside.replace(path)
    for name, to in links(number).items():
        (prefix / name).unlink(missing_ok=True)
        (prefix / name).symlink_to(to)
    return [*files, *links(number)]
