"""A user whom the modes of files bind, as which a check that root runs can run a program too."""
import os
import shutil
import subprocess

NOBODY = 65534


def other_user(program, folder):
    """The words in front of a program that run it as such a user, who may look into this folder: none for one who isn't root, and `None`
    where there is no such user, or this one can't reach the program."""
    if os.geteuid() != 0:
        return []
    if shutil.which("setpriv") is None:
        return None
    os.chmod(folder, 0o755)
    words = ["setpriv", f"--reuid={NOBODY}", f"--regid={NOBODY}", "--clear-groups"]
    reached = subprocess.run([*words, program, "--version"], cwd=folder, capture_output=True)
    return words if reached.returncode == 0 else None


def give(folder):
    """Gives all below a folder to that user, where root runs the check."""
    if os.geteuid() == 0:
        for place, folders, files in os.walk(folder):
            for name in [".", *folders, *files]:
                os.chown(os.path.join(place, name), NOBODY, NOBODY)
