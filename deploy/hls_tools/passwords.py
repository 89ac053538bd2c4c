"""The edge's password files (docs/EDGE.md): `operators/CHANNEL.htpasswd`, `encoders/CHANNEL.htpasswd`, and `encoders/CHANNEL.N.htpasswd` for
rendition N alone. A line is USER:HASH or USER:HASH:BEGINNING, where BEGINNING is how the password begins."""
import base64
import contextlib
import glob
import hashlib
import os
import re
import secrets
import shutil
from typing import NamedTuple

from .channels import NAME, Wrong

DOORS = ("operators", "encoders")
# A user with separate limits. (A longer name doesn't fit into a bucket of nginx's hash, so it shares the limits of unknown users.)
USER = r"[A-Za-z0-9_.@-]{1,20}"
BEGINNING = r"[a-z2-7]{8}"
RENDITION = r"[0-9]|1[0-5]"
LETTERS = "abcdefghijklmnopqrstuvwxyz234567"
Rendition = tuple[str, str]                 # a channel's name, and the number of a rendition


class User(NamedTuple):
    """A user of a channel."""

    name: str
    begins: str         # how the user's credentials begin in base64 (RFC 7617), or nothing if the file doesn't say


def credentials(name: str, beginning: str) -> str:
    """Returns the letters of base64 with which all credentials of a user begin whose password begins so."""
    text = f"{name}:{beginning}".encode()
    return base64.b64encode(text[:len(text) // 3 * 3]).decode()


def renditions_of(folder: str, name: str) -> list[Rendition]:
    """Returns the renditions of a channel that have password files of their own."""
    found = [os.path.basename(path).split(".") for path in glob.glob(os.path.join(glob.escape(folder), "encoders", f"{name}.*.htpasswd"))]
    return sorted((words[0], words[1]) for words in found if len(words) == 3 and re.fullmatch(RENDITION, words[1]))


def read_users(folder: str, name: str, doors: tuple[str, ...] = DOORS) -> list[User]:
    """Returns the users in a channel's password files."""
    files = [f"{door}/{name}.htpasswd" for door in doors]
    if "encoders" in doors:
        files += [f"encoders/{name}.{number}.htpasswd" for _, number in renditions_of(folder, name)]
    found = set()
    for path in (os.path.join(folder, one) for one in files):
        with contextlib.suppress(FileNotFoundError), open(path, encoding="utf-8", errors="replace") as file:
            for line in file:
                user, _, beginning = (*line.rstrip("\n").split(":"), "", "")[:3]
                if re.fullmatch(USER, user):
                    found.add(User(user, credentials(user, beginning) if re.fullmatch(BEGINNING, beginning) else ""))
    return sorted(found)


def path_of(folder: str, door: str, target: str) -> str:
    """Returns the password file of a channel, or of one of its renditions (CHANNEL.N). Wrong if there can't be one."""
    if door not in DOORS:
        raise Wrong(f"{door!r} is neither operators nor encoders")
    if not re.fullmatch(NAME if door == "operators" else f"{NAME}(\\.({RENDITION}))?", target):
        raise Wrong(f"{target!r} is neither a channel nor, for encoders, CHANNEL.N, where N is 0 to 15")
    return os.path.join(folder, door, target + ".htpasswd")


def with_password(text: str, user: str, password: str) -> str:
    """Returns a password file's text with a user's new password. A fast hash suffices, since nobody can guess 130 random bits."""
    hashed = base64.b64encode(hashlib.sha1(password.encode()).digest()).decode()
    others = [line for line in text.split("\n") if line and line.partition(":")[0] != user]
    return "\n".join([*others, f"{user}:{{SHA}}{hashed}:{password[:8]}"]) + "\n"


def new_password() -> str:
    """Returns eight random letters, by which the edge tells the user from a stranger with the same name, and 26 that it keeps as a hash."""
    return "".join(secrets.choice(LETTERS) for _ in range(34))


def let_nginx_read(path: str) -> None:
    """Gives a file to the group of nginx's workers, if there is one on this machine."""
    with contextlib.suppress(LookupError, PermissionError):
        shutil.chown(path, group="www-data")
