"""What a program costs: x86-64 instructions, counted under qemu-user and so the same on every machine, and on an x86-64 machine its time."""
import platform
import re
import resource
import shutil
import subprocess
from pathlib import Path

HERE = Path(__file__).resolve().parent
REPOSITORY = HERE.parent
IS_X86 = platform.machine() == "x86_64"
TIMED_BYTES = 16_000_000
RUNS = 5


def needed(program: str, package: str) -> str:
    found = shutil.which(program)
    if found is None:
        raise SystemExit(f"bench/run: {program} is missing: {package}")
    return found


def compiler() -> str:
    if IS_X86:
        return needed("gcc", "install Debian's gcc")
    return needed("x86_64-linux-gnu-gcc", "install Debian's gcc-x86-64-linux-gnu")


def compiled(sources: list[str], room: Path) -> list[str]:
    """A yardstick, linked statically so that it runs under the emulator with nothing of another machine beside it."""
    program = room / Path(sources[0]).stem
    flags = ["-std=c11", "-D_DEFAULT_SOURCE", "-O3", "-Wall", "-Wextra", "-static", "-Ibindings/c"]
    subprocess.run([compiler(), *flags, *sources, "-o", str(program)], cwd=REPOSITORY, check=True)
    return [str(program)]


def plugin(room: Path) -> Path:
    """qemu's plugin that counts; it runs beside the emulator, so it is compiled for this machine."""
    library = room / "instructions.so"
    gcc = needed("gcc", "install Debian's gcc")
    subprocess.run([gcc, "-O2", "-shared", "-fPIC", "-fvisibility=hidden", str(HERE / "instructions.c"), "-o", str(library)], check=True)
    return library


def loader() -> list[str]:
    """On a machine that is not x86-64 the kit brings the loader and the C library that the proved programs run with."""
    guide = subprocess.run(["rt", "doc"], check=True, capture_output=True, text=True).stdout.strip()
    folder = Path(guide).parent.parent / "on" / platform.machine() / "toolchain" / "lib"
    path = folder / "ld-linux-x86-64.so.2"
    return [str(path), "--library-path", str(folder)] if path.exists() else []


# What the listing program says of an input without a frame: noise and delimiters are such inputs.
NOTE = rb"(?:bytes came, and no frame was among them\n)?"


class Meter:
    """Counts and times commands. A cost a byte is what an input costs beside what an empty one costs."""

    def __init__(self, room: Path) -> None:
        self.room = room
        self.emulator = [needed("qemu-x86_64", "install Debian's qemu-user"), "-plugin", str(plugin(room))]
        self.loader = loader()
        self.at_rest: dict[tuple[str, ...], int] = {}

    def counted(self, command: list[str], source: Path) -> tuple[int, bytes]:
        """Instructions in all, and what the program wrote."""
        loaded = self.loader if command[0].startswith("crates/") else []
        with source.open("rb") as wire:
            run = subprocess.run([*self.emulator, *loaded, *command], stdin=wire, capture_output=True, cwd=REPOSITORY, check=True)
        told = re.fullmatch(NOTE + rb"instructions (\d+)\n", run.stderr)
        if told is None:
            raise SystemExit(f"bench/run: {' '.join(command)} said: {run.stderr.decode(errors='replace')}")
        return int(told[1]), run.stdout

    def instructions(self, command: list[str], source: Path) -> tuple[float, bytes]:
        """Instructions for each byte of the input, and what the program wrote."""
        key = tuple(command)
        if key not in self.at_rest:
            self.at_rest[key] = self.counted(command, Path("/dev/null"))[0]
        count, wrote = self.counted(command, source)
        return (count - self.at_rest[key]) / source.stat().st_size, wrote

    def nanoseconds(self, command: list[str], source: Path) -> float:
        """Processor time for each byte, best of some runs on the input many times over."""
        long = self.room / "long"
        once = source.read_bytes()
        long.write_bytes(once * (TIMED_BYTES // len(once) + 1))
        spent = best_of_runs(command, long) - best_of_runs(command, Path("/dev/null"))
        return spent * 1e9 / long.stat().st_size


def best_of_runs(command: list[str], source: Path) -> float:
    return min(seconds(command, source) for _ in range(RUNS))


def seconds(command: list[str], source: Path) -> float:
    before = resource.getrusage(resource.RUSAGE_CHILDREN)
    with source.open("rb") as wire:
        subprocess.run(command, stdin=wire, stdout=subprocess.DEVNULL, cwd=REPOSITORY, check=True)
    after = resource.getrusage(resource.RUSAGE_CHILDREN)
    return after.ru_utime + after.ru_stime - before.ru_utime - before.ru_stime
