"""Cases as the files of clients/vectors have them (docs/CLIENTS.md, "Vectors")."""


def bytes_lines(text: bytes) -> bytes:
    """Bytes as the line `bytes N` and themselves, if they are text, or as the line `hex` and their digits."""
    is_text = all(it == 10 or 32 <= it < 127 for it in text)
    return b"bytes %d\n%s\n" % (len(text), text) if is_text else b"hex %s\n" % text.hex().encode()


def proof_case(title: str, root: bytes, name: bytes, reply: bytes, shows: str) -> bytes:
    """A case of proofs.txt."""
    return f"case {title}\nroot {root.hex()}\nname {name.hex()}\n".encode() + bytes_lines(reply) + f"shows {shows}\n".encode()


def root_case(title: str, entries: list, word: str) -> bytes:
    """A case of roots.txt: keys with the hashes of their values, and their root."""
    lines = [f"case {title}", f"entries {len(entries)}", *(f"{key.hex()} {hash.hex()}" for key, hash in entries), f"root {word}"]
    return "".join(line + "\n" for line in lines).encode()


def chunk_case(title: str, root: bytes, text: bytes, comes: str) -> bytes:
    """A case of chunks.txt."""
    return f"case {title}\nroot {root.hex()}\n".encode() + bytes_lines(text) + f"comes {comes}\n".encode()
