"""What the scripts of this folder share: the built program, times, memory, made folders and the made network of `sample`."""
import os
import subprocess
import sys
import tempfile
import time

HERE = os.path.dirname(os.path.realpath(__file__))
# The program of the environment, else where `rt ci` leaves the proved one, and where `./netcheck` keeps it.
PLACES = [os.path.join(HERE, place) for place in ("../crates/netcheck/out/netcheck", "../.netcheck/proved/netcheck")]
BUILT = [place for place in PLACES if os.access(place, os.X_OK)]
PROGRAM = os.environ.get("NETCHECK") or max(BUILT, key=os.path.getmtime, default=None)
MB = 1_000_000
SMALL = "255.255.255.252"
RING = 10 << 24
CHORDS = RING + (1 << 16)


def start(main):
    """Calls the script's main, where there is a program to time."""
    if PROGRAM is None:
        print(f"bench/{os.path.basename(sys.argv[0])}: the program is not built; ./netcheck builds it")
    else:
        main()


def dotted(address):
    return ".".join(str(address >> shift & 255) for shift in (24, 16, 8, 0))


def interface(number, address, mask, settings=()):
    return [f"interface GigabitEthernet0/{number}", f" ip address {dotted(address)} {mask}", *settings]


def text_of(lines):
    """The bytes of a configuration of these lines."""
    return ("\n".join(lines) + "\n").encode()


def write(folder, files):
    """Writes configurations into a folder, and gives their paths."""
    paths = []
    for number, data in enumerate(files):
        paths.append(os.path.join(folder, f"r{number:03}.cfg"))
        with open(paths[-1], "wb") as file:
            file.write(data)
    return paths


def size_of(files):
    return f"{sum(len(data) for data in files) / MB:.2f} MB"


def run(command):
    """The time of a run in seconds, the lines that it wrote and what it ended with."""
    begun = time.perf_counter()
    done = subprocess.run(command, stdout=subprocess.PIPE, stderr=subprocess.DEVNULL)
    return time.perf_counter() - begun, done.stdout.decode("utf-8", "replace").splitlines(), done.returncode


def best(command, runs=5):
    """The least time of some runs in seconds, and what the last wrote and ended with."""
    all_runs = [run(command) for _ in range(runs)]
    return min(took for took, _, _ in all_runs), *all_runs[-1][1:]


def best_of(*words, runs=5):
    """The same of the program with these words."""
    return best([PROGRAM, *words], runs)


def by_turns(command, other, turns=31):
    """The times of two commands in the turn whose ratio is the middle one of all turns, and whether both wrote the same in each. In a turn one
    is run behind the other, so the clock at which the machine runs, and what else it does, meets both."""
    pairs = [(run(command), run(other)) for _ in range(turns)]
    pairs.sort(key=lambda pair: pair[0][0] / pair[1][0])
    one, another = pairs[turns // 2]
    return one[0], another[0], all(a[1] == b[1] for a, b in pairs)


def ticks():
    """For how many ticks the host has kept processors from this machine that it wanted, and for how many these have been there: zeros where
    the system doesn't tell."""
    try:
        with open("/proc/stat", encoding="ascii") as file:
            counts = [int(word) for word in file.readline().split()[1:9]]
        return counts[7], sum(counts)
    except (OSError, IndexError, ValueError):
        return 0, 0


def compare_workers(words, workers, yardstick=None):
    """Prints the time of so many workers beside that of one, and beside that of a yardstick, where there is one. What the host keeps from the
    machine meanwhile it keeps from several workers first, so that stands behind it."""
    command = [PROGRAM, *words, "--workers", workers]
    kept, there = ticks()
    took, alone, is_same = by_turns(command, [PROGRAM, *words, "--workers", "1"])
    line = f"  {workers} workers    {took:8.4f} s: {took / alone:.2f} of the time of one, {'the same text' if is_same else 'ANOTHER TEXT'}"
    if yardstick is not None:
        took, plainly, _ = by_turns(command, yardstick)
        line += f"; {took / plainly:.2f} of that of plain C++"
    kept_now, there_now = ticks()
    share = 100 * (kept_now - kept) / max(1, there_now - there)
    print(f"{line}; the host kept {share:.0f} % of the processors" if share >= 1 else line)


def run_held(command):
    """The same of a run, and the most memory in MB that it held, or None where the command time isn't there to tell."""
    # A child that Python starts counts Python's own memory; one that time starts doesn't.
    with tempfile.NamedTemporaryFile() as said:
        try:
            ran = run(["/usr/bin/time", "-f", "%M", "-o", said.name, *command])
            return *ran, int(said.read().split()[-1]) * 1024 / MB
        except (OSError, IndexError, ValueError):
            return *run(command), None


def peak(command):
    """The most memory in MB that a run held, or None where the command time isn't there to tell."""
    return run_held(command)[3]


def megabytes(held):
    return "not known" if held is None else f"{held:.1f} MB"


def answer(lines, status):
    """The first line of an answer, and its status."""
    return f"{lines[0] if lines else 'none'} (status {status}"


def chord(router, count):
    """The address of a router on its chord, if it has one."""
    half = count // 2
    if router < half and router % 8 == 0:
        return CHORDS + 4 * router + 1
    if half <= router < 2 * half and (router - half) % 8 == 0:
        return CHORDS + 4 * (router - half) + 2
    return None


def sample_router(router, count):
    """The configuration of a router of the made network of `sample`."""
    filters = router % 4 == 1
    addresses = [RING + 4 * router + 1, RING + 4 * ((router - 1) % count) + 2, chord(router, count)]
    lines = [f"hostname r{router:03}"]
    for number, address in enumerate(addresses):
        lines += [] if address is None else interface(number, address, SMALL)
    lines += ["interface GigabitEthernet0/3", f" ip address 172.{16 + router // 256}.{router % 256}.1 255.255.255.0"]
    lines += [" ip access-group 101 out"] if filters else []
    lines += ["router ospf 1", " passive-interface GigabitEthernet0/3", " network 0.0.0.0 255.255.255.255 area 0"]
    if filters:
        lines += ["access-list 101 deny tcp any any eq telnet", "access-list 101 permit ip any any"]
    return text_of(lines)


def plain(folder):
    """The plain C++ program, built into a folder, or None where it can't be."""
    program = os.path.join(folder, "plain")
    try:
        subprocess.run(["g++", "-O3", "-march=native", "-std=c++17", "-o", program, os.path.join(HERE, "plain.cpp")], check=True)
    except (OSError, subprocess.CalledProcessError):
        return None
    return program
