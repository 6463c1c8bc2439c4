#!/usr/bin/env python3
"""What the devices and main may do wrong, of which no proof speaks: devices.py PROGRAM [CASE ..]

Each case has been seen to fail with bugs planted (checks/bugs_devices.py). They are about: secrets, each of which is what the system handed out; passphrases and key
files, each of its side; which files and folders are made stable, and in which order; modes, from the call that makes something on; calls of the system that are
interrupted, that take nothing or that aren't valid; folders with many entries, hidden ones, ones that can't be read to their end; links and folders where something is
restored; locks and files of Borg, each alone. With names of cases, those alone are tried. The cases `far_places` and `far_holes`, over files of more than 2^32 bytes,
are a person's: they are tried where they are named. One line for each thing that differs, then what can't be tried here (no strace, no mounts), and at the end
'N passed, M failed, K skipped'; status 1 where M isn't 0.
"""
import os
import shutil
import sys
import tempfile

sys.dont_write_bytecode = True
import devices_calls
import devices_folders
import devices_keys
import devices_lines
from counting import finish, skip

GROUPS = (devices_keys, devices_calls, devices_folders, devices_lines)
NEED_STRACE = [case for group in GROUPS for case in group.NEED_STRACE]
CASES = [case for group in GROUPS for case in (*group.CASES, *group.NEED_STRACE)]
OF_A_PERSON = list(devices_folders.OF_A_PERSON)


def main(chosen):
    unknown = set(chosen) - {case.__name__ for case in CASES + OF_A_PERSON}
    if unknown:
        sys.exit(f"devices.py: no case {' '.join(sorted(unknown))}")
    for case in CASES + OF_A_PERSON:
        if case.__name__ not in chosen and (chosen or case in OF_A_PERSON):
            continue
        if case in NEED_STRACE and shutil.which("strace") is None:
            skip(f"{case.__name__}: there is no strace")
            continue
        with tempfile.TemporaryDirectory() as root:
            # Of a link in its path a trace has the other path.
            case(os.path.realpath(root))
    finish()


main(sys.argv[2:])
