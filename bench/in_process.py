"""Times validating a file in a process that holds it, by ours and by its peers: the shortest of many times."""
import shutil
import subprocess
import sys
import time

# The number of times that a process validates a file.
TIMES = {"ours": 10, "node": 30}
SCRIPT_OF_NODE = """const [name, times] = process.argv.slice(1);
const bytes = require('fs').readFileSync(name);
let answer, shortest = Infinity;
for (let i = 0; i < times; i++) {
    const begin = process.hrtime.bigint();
    answer = WebAssembly.validate(bytes);
    shortest = Math.min(shortest, Number(process.hrtime.bigint() - begin));
}
console.log(answer ? 'yes' : 'no', shortest, 'ns');"""


def told(command):
    """Returns the verdict and the nanoseconds that a process prints."""
    words = subprocess.run(command, stdout=subprocess.PIPE, text=True, check=True).stdout.split()
    return words[0], int(float(words[1]))


def by_node(path):
    return told(["node", "--single-threaded", "-e", SCRIPT_OF_NODE, path, str(TIMES["node"])])


def by_wabt(path):
    """Returns the verdict and the time of a process."""
    begin = time.perf_counter_ns()
    status = subprocess.run(["wasm-validate", path], stderr=subprocess.DEVNULL).returncode
    return "yes" if status == 0 else "no" if status > 0 else "crash", time.perf_counter_ns() - begin


def peers(driver):
    """Returns ours, by the driver, and those of node and wabt that are installed."""
    found = {"ours": lambda path: told([driver, "check", path, str(TIMES["ours"])])}
    if shutil.which("node"):
        found["node"] = by_node
    if shutil.which("wasm-validate"):
        found["wabt"] = by_wabt
    for tool, package in [("node", "nodejs"), ("wasm-validate", "wabt")]:
        if not shutil.which(tool):
            print(f"{tool} is missing: apt-get install {package}", file=sys.stderr)
    return found


def times_of(asked, paths, empty, rounds):
    """Returns the verdict of each peer on each file, and its shortest time. Each round asks all peers of all files, so that other work of the machine hits all
    alike. From wabt's time that of an empty module is subtracted."""
    best = {}
    for _ in range(rounds):
        for path in [empty, *paths]:
            for peer, ask in asked.items():
                verdict, taken = ask(path)
                known = best.get((path, peer), (verdict, taken))
                best[path, peer] = verdict if verdict == known[0] else "unsteady", min(taken, known[1])
    for path in paths:
        if "wabt" in asked:
            verdict, taken = best[path, "wabt"]
            best[path, "wabt"] = verdict, max(1, taken - best[empty, "wabt"][1])
    return best
