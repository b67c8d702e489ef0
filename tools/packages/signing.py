"""Signs the files of a release."""
import pathlib

import archives


def sign(file: pathlib.Path, key: str) -> None:
    """Signs a file with minisign if the key is a file, and otherwise with gpg. Writes FILE.minisig or
    FILE.asc next to it."""
    if pathlib.Path(key).is_file():
        archives.run(["minisign", "-S", "-s", key, "-m", str(file), "-x", f"{file}.minisig"], 0)
    else:
        archives.run(["gpg", "--batch", "--yes", "--armor", "--local-user", key, "--detach-sign", str(file)],
                     0)
