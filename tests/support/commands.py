"""The commands that README.md and examples/README.md show, run as they stand
there, on this machine."""

import os
import platform
import subprocess

from support.programs import TOP, Failed

EXPECTED = TOP / "examples" / "stripe-15-of-16.expected"
# The gate, which runs these tests, is shown too; it is not run within itself.
NOT_HERE = [".ci/run"]
# Which of two blocks is for this machine is told by its compiler.
OTHER_COMPILER = "x86_64-linux-gnu-gcc" if platform.machine() == "x86_64" else "cc"


def blocks(page):
    """The indented blocks of a page, each as its lines; a picture between
    fences is none."""
    found, block, fenced = [], [], False
    for line in [*page.splitlines(), ""]:
        fenced ^= line.startswith("```")
        if line.startswith("    ") and not fenced:
            block.append(line.strip())
        elif block:
            found.append(block)
            block = []
    return found


def for_this_machine(block):
    return not any(line.split()[0] == OTHER_COMPILER for line in block)


def is_command(line):
    """Other indented lines show a description or its answer."""
    return "=" not in line.split()[0]


def check_commands(kit, pages=("README.md", "examples/README.md")):
    """Runs every command that a page shows; the last of a block that ends with
    the stripe prints its alphabet."""
    count = 0
    for page in pages:
        shown = [block for block in blocks((TOP / page).read_text()) if all(map(is_command, block))]
        for block in filter(for_this_machine, shown):
            for line in (line for line in block if line not in NOT_HERE):
                count += 1
                run_line(page, line, kit)
    if count < 4:
        raise Failed(f"the pages show {count} commands only")
    print(f"{count} commands do what the pages say", flush=True)


def run_line(page, line, kit):
    environment = {**os.environ, "PATH": f"{kit / 'bin'}:{os.environ['PATH']}"}
    done = subprocess.run(["bash", "-c", line], cwd=TOP, env=environment, stdout=subprocess.PIPE, check=False)
    if done.returncode != 0:
        raise Failed(f"{page} shows '{line}', which ends with {done.returncode}")
    if "stripe-15-of-16.txt" in line and done.stdout != EXPECTED.read_bytes():
        raise Failed(f"{page} shows '{line}', which prints something else than the example's answer")
