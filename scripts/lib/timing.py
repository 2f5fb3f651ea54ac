"""What the scripts of scripts/bench share that time a program by itself: the line above a measurement, and the least of several runs."""
import os, re, subprocess, sys

TOP = os.path.dirname(os.path.dirname(os.path.dirname(os.path.abspath(__file__))))
RUNS = 5


def measured():
    """Prints the date, the commit and the machine."""
    sys.stdout.flush()
    subprocess.run([TOP + "/scripts/bench/measured.sh"], check=True)


def bench():
    """The program `bench`, which the variable BENCH names."""
    return os.environ.get("BENCH") or sys.exit("BENCH isn't set: the program bench (scripts/gate/lay_out.sh)")


def program_given():
    """The program that the script's one word names."""
    if len(sys.argv) != 2:
        sys.exit("usage: " + re.search(r"(?m)^ +(python3 .*)$", sys.modules["__main__"].__doc__)[1])
    return os.path.realpath(sys.argv[1])


def least(command, path=os.devnull):
    """The least processor time of some runs over a file, in microseconds."""
    return least_of(command, path, subprocess.DEVNULL)[0]


def least_answer(command):
    """The same, and the number that each run printed."""
    took, printed = least_of(command, os.devnull, subprocess.PIPE)
    if len(printed) > 1:
        sys.exit(f"{' '.join(command)}: answers differ")
    return took, int(printed.pop())


def least_of(command, path, stdout):
    times, printed = [], set()
    for _ in range(RUNS):
        with open(path, "rb") as text:
            child = subprocess.Popen(command, stdin=text, stdout=stdout, text=True)
            printed.add(child.stdout.read().strip() if child.stdout else "")
            _, status, used = os.wait4(child.pid, 0)
            child.returncode = status
        if status:
            sys.exit(f"{' '.join(command)}: status {status}")
        times.append((used.ru_utime + used.ru_stime) * 1_000_000)
    return min(times), printed


def taken(command, bare, wanted):
    """The time of a command that prints this number, without that of `bare`, which makes its input alone; in microseconds."""
    took, printed = least_answer(command)
    if printed != wanted:
        sys.exit(f"{' '.join(command)}: {printed} and not {wanted}")
    return took - least_answer(bare)[0]


def lines_of(command):
    """The lines of a run, each a name and a number."""
    out = subprocess.run(command, stdout=subprocess.PIPE, text=True, check=True).stdout
    return [line.rsplit(" ", 1) for line in out.splitlines()]


def least_lines(runs, command):
    """The lines of several runs, each with its least number."""
    for rows in zip(*[lines_of(command) for _ in range(runs)]):
        if len({name for name, _ in rows}) > 1:
            sys.exit(f"{' '.join(command)}: answers differ")
        yield rows[0][0], min(float(number) for _, number in rows)
