"""What the Python of bench/ shares: running a command, and its processor time."""
import os
import statistics
import subprocess


def run(command, path=None):
    """What the command prints, with the file as its input if one is given, its processor time in seconds, and its status."""
    with open(path or os.devnull, "rb") as file:
        child = subprocess.Popen(command, stdin=file, stdout=subprocess.PIPE, stderr=subprocess.DEVNULL, text=True)
        answer = child.stdout.read().strip()
        _, status, usage = os.wait4(child.pid, 0)
        child.returncode = os.waitstatus_to_exitcode(status)
    return answer, usage.ru_utime + usage.ru_stime, child.returncode


def in_turn(commands, rounds, path=None):
    """Runs the commands in turn, as many rounds, and returns what each prints, always the same, and its processor times."""
    answers, times = {}, {name: [] for name in commands}
    for _ in range(rounds):
        for name, command in commands.items():
            answer, seconds, status = run(command, path)
            assert status in (0, 1), (command, status)
            assert answers.setdefault(name, answer) == answer, command
            times[name].append(seconds)
    return answers, times


def medians(times):
    return {name: statistics.median(of) for name, of in times.items()}
