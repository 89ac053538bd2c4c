"""Copies another origin's journal while that origin writes it (docs/RUNNING.md, "Two origins")."""
import os
import tempfile

from .certificates import PROGRAM
from .failures import Failure, run

BOOT_ID = "/proc/sys/kernel/random/boot_id"
# In a container this path is a mount of its own, over which nothing can be mounted.
CLOSE = 'umount "$2" 2> /dev/null; mount --bind "$1" "$2" && "$3" journal --close "$4" && "$3" journal "$4" | grep -qx "closed yes"'


def close(folder: str, boot: str) -> None:
    """Closes a copy as its source's machine would, which has this boot id. Otherwise the next start assumes that a power cut interrupted the
    journal, and gives the channel's paths a new run."""
    with tempfile.NamedTemporaryFile("w", encoding="ascii") as file:
        file.write(boot)
        file.flush()
        run("unshare", "--mount", "sh", "-c", CLOSE, "sh", file.name, BOOT_ID, PROGRAM, folder)


def rsync(*words: str) -> None:
    """Runs rsync. Its status 24, for files that were trimmed meanwhile, is no failure."""
    run("sh", "-c", 'rsync "$@" || [ $? = 24 ]', "rsync", *words)


def copy(source: str, folder: str) -> None:
    """Copies the files of a folder that rsync can reach. The second pass copies what was written during the first. The folder is another
    user's, so it isn't written through a link."""
    if os.path.islink(folder):
        raise Failure(f"{folder} is a link: remove it")
    for _ in range(2):
        os.makedirs(folder, mode=0o700, exist_ok=True)
        rsync("-a", "--no-links", "--no-D", "--delete", source + "/", folder + "/")
