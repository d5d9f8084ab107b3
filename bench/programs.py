"""Small programs over a few crates, proved and built in a folder of their own."""
import os
import shutil
import statistics
import subprocess
import sys
import time

TOP = os.path.join(os.path.dirname(os.path.abspath(__file__)), "..")


def build(folder, crates, others, program):
    """The path of a program that uses these crates of the repository, and these ported ones."""
    with open(os.path.join(TOP, "crates.txt"), encoding="utf-8") as file:
        lines = [line for line in file if line.split(":")[0] in crates]
    with open(os.path.join(folder, "crates.txt"), "w", encoding="utf-8") as file:
        file.writelines(lines + [f"timed: {' '.join(crates + others)}\n"])
    shutil.copy(os.path.join(TOP, "HANDLES"), folder)
    for crate in crates:
        shutil.copytree(os.path.join(TOP, "crates", crate), os.path.join(folder, "crates", crate),
                        ignore=shutil.ignore_patterns("out"))
    crate = os.path.join(folder, "crates", "timed")
    os.makedirs(os.path.join(crate, "src"))
    with open(os.path.join(crate, "src", "main.rt"), "w", encoding="utf-8") as file:
        file.write(program)
    # It is run once, and ends with a fault, since its file is not there yet.
    made = subprocess.run(["rt", "run"], cwd=crate, capture_output=True, text=True)
    path = os.path.join(crate, "out", "timed")
    if not os.path.exists(path):
        sys.exit(f"{sys.argv[0]}: the program could not be built\n{made.stdout}{made.stderr}")
    return path


def seconds(program, folder, told, rounds):
    """The median time of the program, which reads what it is told from the file `told`."""
    with open(os.path.join(folder, "told"), "wb") as file:
        file.write(told)
    times = []
    for _ in range(rounds):
        begun = time.perf_counter()
        status = subprocess.run([program], cwd=folder).returncode
        times.append(time.perf_counter() - begun)
        if status:
            sys.exit(f"{sys.argv[0]}: the program ended with status {status}")
    return statistics.median(times)


def peak(program, folder, told):
    """The most memory that the program held, in bytes."""
    with open(os.path.join(folder, "told"), "wb") as file:
        file.write(told)
    running = subprocess.Popen([program], cwd=folder)
    _, status, used = os.wait4(running.pid, 0)
    running.returncode = os.waitstatus_to_exitcode(status)
    if status:
        sys.exit(f"{sys.argv[0]}: the program ended with status {running.returncode}")
    return used.ru_maxrss * 1024
