"""What the benchmarks share: the two programs, and how a run of one is measured."""
import filecmp, os, re, subprocess, sys, time

HERE = os.path.dirname(os.path.abspath(__file__))
ROOT = os.path.dirname(HERE)
LOW, MERGE = "40", "128/1"
SAMPLES_A_SECOND = 1999


def built_agglo():
    """The program, which the wrapper builds where it is missing or older than its sources."""
    volume = os.path.join(ROOT, "crates", "agglo_cli", "data", "four.vol")
    words = ["basins", "--volume", volume, "--labels", os.devnull, "--low", "1"]
    subprocess.run([os.path.join(ROOT, "agglo"), *words], stdout=subprocess.DEVNULL, check=True)
    return os.path.join(ROOT, "crates", "agglo_cli", "out", "agglo_cli")


def built_plain(folder):
    """The plain Rust program, which is built in this folder."""
    plain = os.path.join(folder, "plain")
    subprocess.run(["rustc", "-C", "opt-level=3", "-C", "target-cpu=x86-64-v2", "--edition", "2021", "-o", plain,
                    os.path.join(HERE, "plain.rs")], check=True)
    return plain


def make_volume(plain, kind, side, path):
    """Has the plain program make a cube of a kind: noise, cells, smooth or rough."""
    subprocess.run([plain, "make", kind, str(side), path], check=True)


def segment_words(agglo, volume, labels, tree, chunk, workers, merge=MERGE):
    """The words of a segmentation in chunks of so many voxels a side."""
    return [agglo, "segment", "--volume", volume, "--labels", labels, "--tree", tree, "--low", LOW,
            "--merge", merge, "--chunk", f"{chunk},{chunk},{chunk}", "--workers", str(workers)]


def samples(words, data):
    """What `perf` samples of a run's processor time, in the order of time: of each its second and its function."""
    record = ["perf", "record", "-q", "-e", "cpu-clock", "-F", str(SAMPLES_A_SECOND), "-o", data, "--", *words]
    subprocess.run(record, stdout=subprocess.DEVNULL, check=True)
    script = ["perf", "script", "-i", data, "-F", "time,ip,sym"]
    told = subprocess.run(script, stdout=subprocess.PIPE, stderr=subprocess.DEVNULL, text=True, check=True).stdout
    lines = (line.split(maxsplit=2) for line in told.splitlines())
    return [(float(line[0].rstrip(":")), line[2]) for line in lines if len(line) == 3]


def place_of(pattern, functions, begin=0, is_last=False, otherwise=None):
    """Of the functions from a place on that have this pattern, the place of the first, or that after the last."""
    found = [at for at in range(begin, len(functions)) if re.search(pattern, functions[at])]
    if not found and otherwise is None:
        sys.exit(f"perf saw no sample of {pattern}")
    if not found:
        return otherwise
    return found[-1] + 1 if is_last else found[0]


def run(words):
    """Seconds and peak memory in bytes of one run. A peak below that of this script, some 15 MB, is not seen."""
    begin = time.monotonic()
    process = subprocess.Popen(words, stdout=subprocess.DEVNULL)
    _, status, usage = os.wait4(process.pid, 0)
    seconds = time.monotonic() - begin
    if status != 0:
        sys.exit(f"{words[0]} ended with {status}")
    return seconds, usage.ru_maxrss * 1024


def best(runs):
    """The shortest time and the greatest peak of several runs."""
    return min(seconds for seconds, _ in runs), max(memory for _, memory in runs)


def are_same(one, other):
    """Whether two files have the same bytes."""
    return filecmp.cmp(one, other, shallow=False)
