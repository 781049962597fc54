"""What benches share: pools of servers and how long the program takes on a configuration, for bench/legs, bench/config and
bench/check; a program over the crates of the repository, for bench/core and bench/hub."""
import json
import os
import random
import shutil
import subprocess
import sys
import tempfile
import time

TOP = os.path.dirname(os.path.dirname(os.path.abspath(__file__)))
PROGRAM = os.path.join(TOP, "crates", "mcv_cli", "out", "mcv_cli")
SERVERS_OF_A_POOL = 100


def server_texts(chosen, count):
    """So many of 60,000 texts, which may repeat."""
    numbers = (chosen.randrange(60000) for _ in range(count))
    return ["10.%d.%d.%d:11211" % (n >> 16 & 255, n >> 8 & 255, n & 255) for n in numbers]


def pool_name(number):
    return "pool%05d" % number


def pool_table(pools):
    """From their names to pools of 100 servers each."""
    chosen = random.Random(7)
    return {pool_name(number): {"servers": server_texts(chosen, SERVERS_OF_A_POOL)} for number in range(pools)}


def seconds(call):
    begun = time.perf_counter()
    call()
    return time.perf_counter() - begun


def best(*calls, runs=5):
    """The least time of each call. They take turns, so that a while in which the machine is busy falls on all."""
    rounds = [[seconds(call) for call in calls] for _ in range(runs)]
    return [min(times) for times in zip(*rounds)]


def build_program():
    """Builds the program where it isn't built yet."""
    if not os.access(PROGRAM, os.X_OK):
        subprocess.run([os.path.join(TOP, "mcv"), "--help"], stdout=subprocess.DEVNULL, check=True)


def printed(words, given_text):
    """What the program prints on words and a text."""
    build_program()
    return subprocess.run([PROGRAM] + words, input=given_text, capture_output=True, text=True).stdout


def running(words, given_text, status=0):
    """A call that runs the program on words and a text, and wants the exit status."""
    build_program()
    given = tempfile.TemporaryFile()
    given.write(given_text.encode())

    def run():
        given.seek(0)
        ended = subprocess.run([PROGRAM] + words, stdin=given, stdout=subprocess.DEVNULL)
        if ended.returncode != status:
            sys.exit("%s ended with status %d" % (" ".join(words), ended.returncode))

    return run


def legs(text):
    """A call that shows the legs of a delete under the configuration."""
    return running(["legs"], "delete a\n" + text)


def check(text):
    """A call that judges the configuration, which has to be covered."""
    return running(["check"], text)


def finding(text):
    """A call that judges the configuration, which has to lose deletes."""
    return running(["check"], text, status=3)


def mend(text):
    """A call that mends the configuration."""
    return running(["mend"], text)


def print_beside_python(plain, whole, half):
    """What the texts whole and half take, beside python's json.load of plain, which is whole without comments."""
    python, mcv, mcv_half = best(lambda: json.loads(plain), legs(whole), legs(half))
    print("configuration: %.1f MB, half: %.1f MB" % (len(whole) / 1e6, len(half) / 1e6))
    print("python3 json.load: %.3f s" % python)
    print("mcv legs:          %.3f s, on the half %.3f s" % (mcv, mcv_half))
    print("mcv / python: %.2f (goal at most 3)" % (mcv / python))
    print("whole / half: %.2f (goal at most 2.2)" % (mcv / mcv_half))


def below(names, lines):
    """The crates of these names and all below them."""
    depends_on = {line.split(":")[0]: line.split(":")[1].split() for line in lines if ":" in line and not line.startswith("#")}
    found = set()
    left = list(names)
    while left:
        name = left.pop()
        if name in depends_on and name not in found:
            found.add(name)
            left.extend(depends_on[name])
    return found


def built(program, uses, folder):
    """The program of bench/PROGRAM.rattle over these crates, built in a copy of them, with their libraries where these are
    built already."""
    home = os.path.join(folder, "crates", program)
    os.makedirs(os.path.join(home, "src"))
    shutil.copy(os.path.join(TOP, "bench", program + ".rattle"), os.path.join(home, "src", "main.rt"))
    shutil.copy(os.path.join(TOP, "HANDLES"), folder)
    with open(os.path.join(TOP, "crates.txt")) as given:
        lines = given.readlines()
    names = below(uses, lines)
    # what checks keep for later ones is large, and no part of a library
    kept = shutil.ignore_patterns("incremental")
    for name in names:
        shutil.copytree(os.path.join(TOP, "crates", name), os.path.join(folder, "crates", name), ignore=kept)
    with open(os.path.join(folder, "crates.txt"), "w") as listed:
        listed.writelines(line for line in lines if line.split(":")[0] in names)
        listed.write("%s: %s\n" % (program, " ".join(uses)))
    run = subprocess.run(["rt", "run"], cwd=home, stdin=subprocess.DEVNULL, capture_output=True, text=True)
    binary = os.path.join(home, "out", program)
    if not os.access(binary, os.X_OK):
        sys.exit(run.stdout + run.stderr)
    return binary
