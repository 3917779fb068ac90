"""A record as `wqrecord stop` writes it: an archive whose parts are what tracefs gave."""

import gzip
import io
import pathlib
import re
import tarfile
import zlib
from dataclasses import dataclass, field

PLACES = "places"  # the lines of the source, once `wqrecord places` has put them there
LOSSES = ("overrun", "commit overrun", "dropped events")


class Unreadable(Exception):
    """The file isn't what it should be."""


@dataclass(frozen=True)
class Missed:
    """A probe that the kernel didn't get to each time, since it was in another one's."""

    probe: str
    hits: int
    missed: int


@dataclass
class Archive:
    """The parts by their names."""

    path: pathlib.Path
    parts: dict[str, bytes] = field(default_factory=dict)

    @staticmethod
    def read(path: pathlib.Path) -> "Archive":
        found = Archive(path)
        with open(path, "rb") as file:
            try:
                archive = tarfile.open(fileobj=file, mode="r:*")
            except (tarfile.TarError, EOFError, zlib.error) as error:
                raise Unreadable(f"{path}: it is no record: neither tar nor tar.gz, or empty") from error
            try:
                found.take(archive)
            except (tarfile.TarError, EOFError, zlib.error, gzip.BadGzipFile) as error:
                raise Unreadable(f"{path}: it is damaged, or its end is missing: {error}") from error
        if not {"formats", "kallsyms", "release"} <= found.parts.keys():
            raise Unreadable(f"{path}: it is no record of wqrecord")
        return found

    def take(self, archive: tarfile.TarFile) -> None:
        """Reads all parts. Python takes it for the end where the file is cut between two of them."""
        for member in archive:
            if member.isfile():
                self.parts[pathlib.PurePath(member.name).name] = archive.extractfile(member).read()
        archive.fileobj.seek(archive.offset)
        if archive.fileobj.read(tarfile.BLOCKSIZE) != bytes(tarfile.BLOCKSIZE):
            raise tarfile.ReadError("an archive ends with a block of zeros")

    def write(self, path: pathlib.Path) -> None:
        with tarfile.open(path, "w:gz" if path.suffix == ".gz" else "w") as archive:
            for name, data in sorted(self.parts.items()):
                member = tarfile.TarInfo(name)
                member.size = len(data)
                archive.addfile(member, io.BytesIO(data))

    def text(self, name: str) -> str:
        return self.parts.get(name, b"").decode("latin-1")

    @property
    def release(self) -> str:
        return self.text("release").strip()

    @property
    def mode(self) -> str:
        return self.text("mode").strip() or "default"

    @property
    def seconds(self) -> float:
        return float(self.text("ended") or 0) - float(self.text("began") or 0)

    def pages(self) -> dict[int, bytes]:
        """The pages of each CPU."""
        return {
            int(match[1]): data
            for name, data in sorted(self.parts.items())
            if (match := re.fullmatch(r"cpu(\d+)\.raw", name))
        }

    def threads(self) -> dict[int, str]:
        """The names of the threads that were there at the end."""
        rows = (line.partition(" ") for line in self.text("threads").splitlines())
        return {int(pid): name for pid, _, name in rows if pid.isdigit()}

    def lost(self) -> list[str]:
        """What didn't get into the record, in words."""
        found = []
        for name in sorted(self.parts):
            if name.endswith(".stats"):
                counts = dict(re.findall(r"^([a-z ]+): (\d+)$", self.text(name), re.M))
                found += [
                    f"{counts[word]} events of {name[:-6]} ({word})" for word in LOSSES if int(counts.get(word, 0))
                ]
        return found

    def missed(self) -> list[Missed]:
        rows = (line.split() for line in self.text("kprobe_profile").splitlines())
        return [Missed(row[0], int(row[1]), int(row[2])) for row in rows if len(row) == 3 and row[2] != "0"]
