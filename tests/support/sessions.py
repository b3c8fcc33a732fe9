"""Sessions on pages: lines `$ COMMAND`, and below each what it writes."""
import os
import re
import subprocess

COMMAND = re.compile(r"^\$ (.*)\n((?:(?!\$ ).*\n)*)", re.M)


def written(command, folder, programs):
    """What a command writes in bash, in a folder, with the programs of another on the PATH."""
    how = {"cwd": folder, "env": {**os.environ, "PATH": f"{programs}:{os.environ['PATH']}"}, "timeout": 60}
    done = subprocess.run(["bash", "-c", f"exec 2>&1 </dev/null; {command}"], stdout=subprocess.PIPE, **how)
    return done.stdout.decode()


def linked(folder, **programs):
    """The folder, with a link to each program by its name."""
    for name, program in programs.items():
        os.symlink(program, os.path.join(folder, name))
    return folder
