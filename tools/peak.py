"""What a command of `exr` takes for files: its status, the peak memory and the processor time of the program, measured by
tools/twins/peak.c."""
import os, subprocess, tempfile

PROGRAM = os.path.abspath("crates/exr/out/exr")
LAUNCHER = os.path.abspath("tools/twins/peak.c")


def measured(words, cases):
    """Runs the program on the file of each case, a name and bytes, with `{in}` and `{out}` in its words replaced by names of
    files on a tmpfs. Gives each name, the bytes, the status, the peak in KiB and the time in microseconds."""
    with tempfile.TemporaryDirectory(dir="/dev/shm") as folder:
        source, launcher = os.path.join(folder, "a.exr"), os.path.join(folder, "peak")
        subprocess.run(["gcc", "-O2", "-o", launcher, LAUNCHER], check=True)
        for name, data in cases:
            with open(source, "wb") as file:
                file.write(data)
            named = [word.replace("{in}", source).replace("{out}", os.path.join(folder, "b")) for word in words]
            run = subprocess.run([launcher, PROGRAM] + named, check=True, stdout=subprocess.PIPE)
            status, peak, time = map(int, run.stdout.split())
            yield name, data, status, peak, time
