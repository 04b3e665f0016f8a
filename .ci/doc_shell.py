"""The blocks `sh` of docs/OPERATING.md that can be run: what the words in capitals are, what has to be there, and what they print."""
import re
from typing import NamedTuple, Optional

ONE = "9bb72c39f13d2b512ea34eae99a28f6d807a134ab125e89172310c6f6ea72f8f"
"""The root of the name 61 with the value 31 (docs/FORMATS.md, "Keys and roots")."""
TWO = "3e92b77a6f4a7dcc426f134b3415f3af7eb39e5c8ac7599c94f5a3c83fe07425"
"""That of the names 61 and 62 with the values 31 and 32 ("Replies")."""
MADE = "mkdir FOLDER; printf 'put 61 =31\\nput 62 =32\\ncommit\\n' | jellystore FOLDER run > made\n"
STATUS = "0 ok status base 0 floor 0 retired 0 head 1 kept {} forks 0 generation 1\n"
NEWEST = f"0 ok root {TWO}\n" + STATUS.format(4)


class Shell(NamedTuple):
    """Of a block of commands: what is done before it, in the same folder; what its words in capitals mean; what is printed; and what else is
    done after it, whose output is looked at too."""

    words: dict[str, str]
    printed: str
    before: str = ""
    after: str = ""


# By the section, how the block begins, and which of those that begin so in the section it is.
SHELLS: dict[tuple[str, str, int], Shell] = {
    ("After each run", "printf 'root head", 0): Shell({"FOLDER": "kept"}, NEWEST, MADE),
    ("A node that keeps its last head", "jellystore FOLDER resume", 0): Shell(
        {"FOLDER": "resumed"}, "0 ok value =31\n", MADE + f"version=1; root={TWO}; echo get head 61 > lines\n",
    ),
    ("Damaged files", "printf '\\0' | dd", 0): Shell(
        {"COPY": "cut", "OFFSET": "222"}, STATUS.format(2) + f"0 ok root {ONE}\n",
        "mkdir COPY; printf 'put 61 =31\\ncommit\\nput 62 =32\\ncommit\\n' | jellystore COPY run > made\n",
    ),
    ("Backups", "mkdir BACKUP", 0): Shell({"FOLDER": "source", "BACKUP": "backup"}, NEWEST, MADE),
    ("Backups", "mkdir BACKUP", 1): Shell({"FOLDER": "running", "BACKUP": "copied"}, NEWEST, MADE),
    ("Backups", "root=$(echo root v3", 0): Shell(
        {"FOLDER": "given", "NEW": "taken"}, f"restored 3 {TWO} 2\n", MADE.replace("put", "commit\\ncommit\\nput", 1) + "mkdir NEW\n",
    ),
    ("Proofs of many names", "jellystore FOLDER many 3", 0): Shell(
        {"FOLDER": "asked"}, "many 1 5\nclaim 62 =32\n", MADE.replace("put", "commit\\ncommit\\nput", 1) + "echo 62 > names\n", "head -n 2 block",
    ),
    ("A leader and its followers", "jellystore LEADER lead", 0): Shell(
        {"LEADER": "leader"}, f"landing 1 {ONE} 1\n", "mkdir LEADER; rm -f blocks; printf 'put 61 =31\\ncommit\\n' > lines\n", "head -n 1 blocks",
    ),
    ("A leader and its followers", "root=$(sed -n", 0): Shell(
        {"OTHER": "behind", "NEW": "beside"}, f"restored 3 {TWO} 2\nfollowed 4 {ONE}\n",
        "mkdir ahead OTHER NEW\n"
        "printf 'commit\\nput 61 =31\\ncommit\\nput 62 =32\\ncommit\\n' | jellystore ahead lead > blocks; jellystore OTHER follow < blocks > made\n"
        "printf 'del 62\\ncommit\\n' | jellystore ahead lead >> blocks\n",
    ),
}


def shell_of(section: str, text: str, earlier: list[str]) -> Optional[Shell]:
    """How a block is run that comes after others of its section, if it can be."""
    for (place, front, number), it in SHELLS.items():
        if place == section and text.startswith(front) and sum(other.startswith(front) for other in earlier) == number:
            return it
    return None


def commands_of(it: Shell, text: str) -> str:
    """All commands of a block, with words in place of those in capitals."""
    return re.sub(r"\b[A-Z]{3,}\b", lambda found: it.words.get(found[0], found[0]), f"{it.before}{text}{it.after}")
