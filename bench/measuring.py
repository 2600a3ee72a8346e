"""What a run of a program costs, for the benches."""
import os
import resource
import subprocess


def run(command, limit, folder):
    """The output, the status, the processor seconds, and the megabytes at most of one run, which is stopped after so many
    seconds of the processor. `time` is between, since the memory that is told of a child is at least that of the process that it
    was split from."""
    measures, output = folder / "measures", folder / "output"
    with open(output, "wb") as out:
        child = subprocess.Popen(
            ["/usr/bin/time", "-q", "-f", "%M", "-o", measures, *command], stdin=subprocess.DEVNULL, stdout=out, stderr=subprocess.DEVNULL,
            preexec_fn=lambda: resource.setrlimit(resource.RLIMIT_CPU, (limit, limit)))
        _, waited, used = os.wait4(child.pid, 0)
    kilobytes = int(measures.read_text().split()[-1])
    return output.read_text(), os.waitstatus_to_exitcode(waited), used.ru_utime + used.ru_stime, kilobytes / 1024
