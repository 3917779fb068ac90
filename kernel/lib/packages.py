"""Brings what the judge needs into a cache, from packages of Debian: a kernel with its headers, for which the module
is built, a shell for the guest, and QEMU where there is none on the PATH. Nothing is installed.

The cache is ~/.cache/wqplan-kernel, or wqplan-kernel in $XDG_CACHE_HOME. Packages come by `apt-get download`, or from
the folder that $WQJUDGE_DEBS names, which apt then isn't asked for.
"""

import contextlib
import fcntl
import functools
import hashlib
import lzma
import os
import pathlib
import re
import shutil
import sys
import tempfile

import processes

HERE = pathlib.Path(__file__).resolve().parent
MODULE = HERE.parent / "module"
SERIES = ("6.1", "6.12")

# How long a program may take: apt-get and make have much to do on a busy machine.
SECONDS = 1800


class Missing(Exception):
    """Something that the judge needs can't be had. The text says what, and what would help."""


def cache():
    base = os.environ.get("XDG_CACHE_HOME") or os.path.join(os.path.expanduser("~"), ".cache")
    place = pathlib.Path(base).absolute() / "wqplan-kernel"
    try:
        place.mkdir(parents=True, exist_ok=True)
    except OSError as error:
        raise Missing(f"the cache {place} can't be made: {error.strerror}") from error
    return place


def output_of(words, **given):
    """What a program prints. Raises Missing where there is no such program, or it fails."""
    try:
        ended = processes.run(words, SECONDS, **given)
    except OSError as error:
        raise Missing(f"{words[0]}: {error.strerror} (is it installed, and on the PATH?)") from error
    except processes.Late as late:
        raise Missing(f"`{' '.join(map(str, words))}` took more than {SECONDS} s") from late
    if ended.returncode != 0:
        said = (ended.stdout + ended.stderr).decode(errors="replace").strip()
        raise Missing(f"`{' '.join(map(str, words))}` failed:\n{said}")
    return ended.stdout.decode(errors="replace")


# Packages -----------------------------------------------------------------------------------------


def named_folder():
    """The folder that has the packages, or None where apt is asked."""
    folder = os.environ.get("WQJUDGE_DEBS")
    return pathlib.Path(folder) if folder else None


def order_of(version):
    """A key by which versions are sorted: numbers as numbers."""
    return [int(part) if part.isdigit() else 0 for part in re.split(r"[^0-9]+", version)]


def known_packages(prefix):
    """The names of all packages that begin so, as far as apt or the folder knows any."""
    folder = named_folder()
    if folder:
        return sorted({path.name.split("_")[0] for path in folder.glob(f"{prefix}*.deb")})
    return sorted(output_of(["apt-cache", "pkgnames", prefix]).split())


def newest_release(series):
    """What `uname -r` says of the newest kernel of a series that there is, as 6.1.0-56-cloud-amd64."""
    pattern = re.compile(rf"linux-image-({re.escape(series)}\.[0-9].*-cloud-amd64)(-unsigned)?")
    found = {match[1] for name in known_packages(f"linux-image-{series}.") if (match := pattern.fullmatch(name))}
    if not found:
        where = named_folder() or "the lists of apt (`apt-get update` fetches them)"
        raise Missing(f"there is no linux-image-{series}.*-cloud-amd64 in {where}")
    return max(found, key=order_of)


def fetch(names, into):
    """The files of packages, downloaded into a folder."""
    folder = named_folder()
    if folder is None:
        print(f"downloading {', '.join(names)}", file=sys.stderr, flush=True)
        output_of(["apt-get", "download", "-q", *names], cwd=into)
        folder = into
    found = []
    for name in names:
        files = sorted(folder.glob(f"{name}_*.deb"))
        if not files:
            raise Missing(f"there is no {name}_*.deb in {folder}")
        found.append(files[-1])
    return found


def unpack(package, root, *only):
    """Unpacks a package, or of it the paths that fit these patterns alone."""
    root.mkdir(parents=True, exist_ok=True)
    if not only:
        output_of(["dpkg-deb", "-x", package, root])
        return
    patterns = " ".join(f"'{pattern}'" for pattern in only)
    output_of(
        [
            "bash",
            "-c",
            f"set -o pipefail; dpkg-deb --fsys-tarfile \"$1\" | tar -x -C \"$2\" --wildcards {patterns}",
            "bash",
            package,
            root,
        ]
    )


@contextlib.contextmanager
def locked(path):
    """Holds a file or a folder that is there, until this is left, or the process is no more. Raises BlockingIOError if
    another process does.
    """
    held = os.open(path, os.O_RDONLY)
    try:
        fcntl.flock(held, fcntl.LOCK_EX | fcntl.LOCK_NB)
        yield
    finally:
        os.close(held)


def sweep():
    """Removes what a judge that was killed has left in the cache. Who still lives holds what is its own."""
    for left in cache().glob("making.*"):
        with contextlib.suppress(OSError), locked(left):
            shutil.rmtree(left, ignore_errors=True)


@contextlib.contextmanager
def making():
    """A folder of the cache for what is under way. Nothing of it is left."""
    while True:
        folder = pathlib.Path(tempfile.mkdtemp(prefix="making.", dir=cache()))
        with contextlib.ExitStack() as until_left:
            until_left.callback(shutil.rmtree, folder, ignore_errors=True)
            try:
                until_left.enter_context(locked(folder))
            except OSError:  # another one has just taken it for left, and removes it
                continue
            if folder.exists():
                yield folder
                return


def made(place, make):
    """A folder of the cache, made by `make` where it isn't there. It is given the folder to fill, and one for what it
    downloads. A half-made one is never taken for it.
    """
    if not place.exists():
        place.parent.mkdir(parents=True, exist_ok=True)
        with making() as folder:
            under_way, downloads = folder / "it", folder / "downloads"
            under_way.mkdir()
            downloads.mkdir()
            make(under_way, downloads)
            try:
                under_way.rename(place)
            except OSError:  # another judge was faster
                if not place.exists():
                    raise
    return place


# The kernel and the module ------------------------------------------------------------------------


class Kernel:
    """A kernel of the cache: its image, and the module for it."""

    def __init__(self, series, release):
        self.series, self.release = series, release
        self.place = cache() / release

    @property
    def image(self):
        return self.place / "boot" / f"vmlinuz-{self.release}"

    @property
    def version(self):
        """Which Linux it is, as 6.1.192. The package's name says 6.1.0-56 of it."""
        found = re.search(rb"#1 SMP.* Debian (\d+\.\d+\.\d+)", self.banner())
        return found[1].decode() if found else self.release

    def banner(self):
        """The version text in the head of the image (Documentation/x86/boot.rst, kernel_version)."""
        head = self.image.read_bytes()[:65536]
        at = int.from_bytes(head[0x20E:0x210], "little") + 0x200
        return head[at : head.index(b"\0", at)]

    def headers(self):
        return self.place / "usr" / "src" / f"linux-headers-{self.release}"

    def module(self):
        """The module, built for this kernel from the sources as they are now."""
        sources = sorted(path for path in MODULE.iterdir() if path.suffix in (".c", ".h") or path.name == "Makefile")
        sources = [path for path in sources if not path.name.endswith(".mod.c")]
        said = hashlib.sha256(b"".join(path.name.encode() + path.read_bytes() for path in sources)).hexdigest()[:16]

        def build(place, _):
            for source in sources:
                shutil.copy(source, place)
            self.build(place)

        return made(self.place / f"module-{said}", build) / "wqjudge.ko"

    def build(self, folder):
        """Builds the module of a folder, by the Makefile there."""
        output_of(["make", "-C", folder, f"HEADERS={self.headers()}", *self.compiler()])

    def compiler(self):
        """What to say to make where the compiler that Debian built the kernel with isn't there."""
        named = re.search(r"^CC = .*?(gcc\S*)$", (self.headers() / ".kernelvariables").read_text(), re.MULTILINE)
        return [] if named and shutil.which(named[1]) else ["CC=gcc"]


def fetch_kernel(release, place, downloads):
    """Downloads a kernel and its headers, and unpacks them."""
    headers = f"linux-headers-{release}"
    common = re.sub(r"-cloud-amd64$", "-common", headers)
    image, *others = fetch([image_package(release), headers, common], downloads)
    unpack(image, place, "./boot/vmlinuz-*")
    for package in others:
        unpack(package, place)
    unpack(*fetch([kbuild_package(release, place)], downloads), place)
    # The makefiles of Debian's headers name each other by the places where they are installed.
    for makefile in place.glob("usr/src/linux-headers-*/Makefile"):
        text = makefile.read_text()
        makefile.write_text(re.sub(r"(?<=include )/usr/src/", f"{cache() / release}/usr/src/", text))
    # Without this nobody needs pahole: no types for BPF are made of the module.
    for image in place.glob("usr/src/linux-headers-*/vmlinux"):
        image.unlink()


def modules(kernel, names, patches=()):
    """For each of these modules of the kernel's package its file, and before it those of modules that it needs and that
    aren't there yet. With patches, those that come from a folder which one changes are built anew, and so are those that
    the package lacks (what such a one needs must be named before it).
    """

    def make(place, downloads):
        unpack(*fetch([image_package(kernel.release)], downloads), place, "./lib/modules/*")

    root = made(cache() / f"modules-{kernel.release}", make)
    files = {plain_name(path): path for path in root.rglob("*.ko*")}
    found = {}

    def load(name):
        name = name.replace("-", "_")
        if name in found:
            return []
        if name not in files:
            found[name] = lacking(kernel, name, patches)
            return [name]
        found[name] = files[name] = unpacked(files[name])
        needed = re.search(rb"\0depends=([^\0]*)\0", found[name].read_bytes())[1].decode()
        return [*(each for more in needed.split(",") if more for each in load(more)), name]

    order = [load(name) for name in names]
    found |= patched(kernel, patches, found)
    return [[found[name] for name in group] for group in order]


def plain_name(path):
    """What a module's file is called, with `_` for `-`, which means the same."""
    return re.sub(r"\.ko(\.xz|\.zst)?$", "", path.name).replace("-", "_")


def unpacked(path):
    """The file of a module, without its compression."""
    if path.suffix != ".xz":
        return path
    plain = path.with_suffix("")
    if not plain.exists():
        half = plain.with_suffix(f".{os.getpid()}")
        half.write_bytes(lzma.decompress(path.read_bytes()))
        half.rename(plain)
    return plain


# Modules with a patch ------------------------------------------------------------------------------


def folders_of(patches):
    """The folders with the files that these patches change, as fs/nfs. Raises Missing for one that changes none."""
    folders = set()
    for patch in patches:
        changed = re.findall(r"^\+\+\+ b/(\S+)", patch.read_text(), re.MULTILINE)
        if not changed:
            raise Missing(f"{patch}: it changes no file (`+++ b/FILE`)")
        folders |= {os.path.dirname(path) for path in changed}
    return sorted(folders)


def source_of(kernel, folder):
    """A folder of the sources of a kernel, from Debian's linux-source-SERIES."""
    tree = f"linux-source-{kernel.series}"

    def make(place, downloads):
        package = fetch([tree], downloads)[0]
        output_of(
            [
                "bash",
                "-c",
                'set -o pipefail; dpkg-deb --fsys-tarfile "$1" | tar -xO "./usr/src/$2.tar.xz" |'
                ' tar -xJ -C "$3" --strip-components=1 "$2/Makefile" "$2/$4"',
                "bash",
                package,
                tree,
                place,
                folder,
            ]
        )

    root = made(cache() / f"source-{kernel.release}-{folder.replace('/', '-')}", make)
    version = ".".join(re.findall(r"^(?:VERSION|PATCHLEVEL|SUBLEVEL) = (\d+)$", (root / "Makefile").read_text(), re.M))
    if version != kernel.version:
        raise Missing(f"Debian's {tree} is Linux {version}, and the kernel {kernel.version}")
    return root / folder


def lacking(kernel, name, patches):
    """Where the package would have a module that it lacks, and that is made in a folder which a patch changes."""
    for folder in folders_of(patches):
        for called in configured(source_of(kernel, folder)):
            if called.replace("-", "_") == name:
                return pathlib.Path(f"/kernel/{folder}/{called}.ko")
    raise Missing(f"the package of Linux {kernel.release} has no module {name}")


def configured(folder):
    """The modules of a folder of the sources, and of each the word of the configuration that has it made."""
    makefile = (folder / "Makefile").read_text()
    return {name: word for word, name in re.findall(r"^obj-\$\((CONFIG_\w+)\)\s*\+=\s*(\S+)\.o$", makefile, re.MULTILINE)}


def neighbours(folder):
    """The folders beside this one whose headers its files include, as `#include "../host/nvme.h"` does."""
    texts = [path.read_text(errors="replace") for path in folder.glob("*.[ch]")]
    names = {name for text in texts for name in re.findall(r'^#include "\.\./(\w+)/', text, re.MULTILINE)}
    return sorted(names - {folder.name})


def patched(kernel, patches, files):
    """Of these files of modules, by their names, those from a folder that a patch changes, built with all patches. They
    apply to the top of the sources, one after the other.
    """
    built = {}
    texts = b"".join(patch.read_bytes() for patch in patches)
    folders = folders_of(patches)
    for folder in folders:
        here = {name: path.name for name, path in files.items() if str(path.parent).endswith(f"/kernel/{folder}")}
        if not here:
            raise Missing(f"{', '.join(map(str, patches))}: none of the modules is in {folder}")
        said = hashlib.sha256(texts + " ".join(sorted(here)).encode()).hexdigest()[:16]

        def build(place, _, folder=folder, here=here):
            at = place / "tree" / folder
            beside = [f"{os.path.dirname(folder)}/{name}" for name in neighbours(source_of(kernel, folder))]
            for each in sorted({*folders, *beside}):
                shutil.copytree(source_of(kernel, each), place / "tree" / each)
            for patch in patches:
                output_of(["patch", "-p1", "-d", place / "tree", "-i", patch.resolve()])
            words = configured(at)
            asked = [f"{words[name]}=m" for file in here.values() if (name := file.removesuffix(".ko")) in words]
            output_of(["make", "-C", kernel.headers(), f"M={at}", *kernel.compiler(), *asked, *here.values()])
            for file in here.values():
                output_of(["strip", "-g", "-o", place / file, at / file])
            shutil.rmtree(place / "tree")

        place = made(cache() / f"patched-{kernel.release}-{said}", build)
        built |= {name: place / file for name, file in here.items()}
    return built


def image_package(release):
    image = f"linux-image-{release}"
    return image if image in known_packages(image) else f"{image}-unsigned"


def kbuild_package(release, place):
    """The package of the build's programs: the links in the headers lead to its folder."""
    link = os.readlink(place / "usr" / "src" / f"linux-headers-{release}" / "scripts")
    return re.search(r"linux-kbuild-[^/]+", link)[0]


def kernels(series):
    """The kernels of a series, in the order in which they are to be taken: the newest that there is, then those of the
    cache, newest first.

    Raises Missing where there is none at all.
    """
    if series not in SERIES:
        raise Missing(f"the series {series} isn't known: the module is for {' and '.join(SERIES)}")
    sweep()
    pattern = re.compile(rf"{re.escape(series)}\..*-cloud-amd64")
    cached = sorted(
        (path.name for path in cache().iterdir() if pattern.fullmatch(path.name)), key=order_of, reverse=True
    )
    try:
        newest = newest_release(series)
        made(cache() / newest, functools.partial(fetch_kernel, newest))
    except Missing:
        if not cached:
            raise
        newest = cached[0]
    return [Kernel(series, release) for release in [newest, *(name for name in cached if name != newest)]]


# The shell and the machine ------------------------------------------------------------------------


def busybox():
    """A shell that needs no library."""

    def make(place, downloads):
        unpack(*fetch(["busybox-static"], downloads), place)

    root = made(cache() / "busybox", make)
    return next(path for path in (root / "bin" / "busybox", root / "usr" / "bin" / "busybox") if path.exists())


def needed_by(name):
    """A package, and all that would have to be installed with it here."""
    told = output_of(["apt-get", "-s", "--no-install-recommends", "install", name])
    return sorted({name, *re.findall(r"^Inst (\S+)", told, re.MULTILINE)})


# Of qemu-system-common.
QEMU_MODULES = "usr/lib/x86_64-linux-gnu/qemu"


def qemu():
    """The words that start QEMU, without its arguments, and what they need in the environment."""
    found = shutil.which("qemu-system-x86_64")
    if found:
        return [found], {}

    def make(place, downloads):
        if named_folder():
            packages = sorted(named_folder().glob("*.deb"))
            if not any(path.name.startswith("qemu-system-x86_") for path in packages):
                raise Missing(
                    f"there is no qemu-system-x86_64 on the PATH, and no qemu-system-x86_*.deb in {named_folder()}"
                )
            for path in packages:
                if not path.name.startswith("linux-"):
                    unpack(path, place)
            return
        for package in fetch(needed_by("qemu-system-x86"), downloads):
            unpack(package, place)

    root = made(cache() / "qemu", make)
    libraries = ":".join(str(root / folder) for folder in ("usr/lib/x86_64-linux-gnu", "lib/x86_64-linux-gnu"))
    environment = {"LD_LIBRARY_PATH": libraries}
    # What was installed already, as by the QEMU of another machine, isn't in the cache.
    if not (root / QEMU_MODULES).exists():
        environment["QEMU_MODULE_DIR"] = f"/{QEMU_MODULES}"
    places = [base / "usr/share" for base in (root, pathlib.Path("/"))]
    firmware = [word for place in places for name in ("qemu", "seabios") for word in ("-L", str(place / name))]
    return [str(root / "usr/bin/qemu-system-x86_64"), *firmware], environment


def missing(series):
    """Why no guest of a series can be started here, or nothing."""
    try:
        kernels(series)[0].module()
        busybox()
        qemu()
        return ""
    except Missing as why:
        return str(why)
