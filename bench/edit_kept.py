"""What earlier runs on this machine saw refused, by the checksums of all that it stands on."""
import hashlib
import json
import os
import subprocess
import tempfile

import edit_checks

HERE = os.path.dirname(os.path.abspath(__file__))
# The texts of the scripts that judge, as they were when they were read. In which order they are tried is not among it.
SCRIPTS = b"".join(open(f"{HERE}/{it}.py", "rb").read() for it in ("edit_trials", "edit_checks", "edit_kept", "edit_texts"))


class Kept:
    """What earlier runs on this machine saw refused."""

    def __init__(self, top, crates, at=None):
        self.top, self.crates, self.sums = top, crates, {}
        base = os.environ.get("XDG_CACHE_HOME")
        self.at = at or (f"{base}/acpicheck-edits" if base else f"/var/tmp/acpicheck-edits-{os.getuid()}")
        version = subprocess.run(["rt", "version"], capture_output=True, check=True).stdout
        self.base = hashlib.sha256(version + SCRIPTS).hexdigest()
        try:
            os.makedirs(self.at, 0o700, exist_ok=True)
            found = os.lstat(self.at)
            self.is_ours = found.st_uid == os.getuid() and not found.st_mode & 0o022 and not os.path.islink(self.at)
        except OSError:
            self.is_ours = False

    def sum_of(self, crate):
        """A sum of a crate's texts and of those below it."""
        if crate not in self.sums:
            total = hashlib.sha256(repr((self.base, crate, self.crates[crate])).encode())
            for part in edit_checks.PARTS:
                for at, folders, files in os.walk(f"{self.top}/crates/{crate}/{part}"):
                    folders.sort()
                    for name in sorted(files):
                        with open(f"{at}/{name}", "rb") as it:
                            total.update(repr((os.path.relpath(f"{at}/{name}", self.top), it.read())).encode())
            total.update(repr([self.sum_of(it) for it in self.crates[crate] if it in self.crates]).encode())
            self.sums[crate] = total.hexdigest()
        return self.sums[crate]

    def place(self, edit):
        name = hashlib.sha256(repr((self.sum_of(edit.crate), edit.name, edit.text)).encode()).hexdigest()
        return f"{self.at}/{edit.crate}-{name}"

    def where(self, edit):
        """Where an earlier run saw the edit refused, if one did."""
        try:
            with open(self.place(edit), encoding="utf-8") as it:
                found = json.load(it)
            return found["where"] if self.is_ours and found["edit"] == edit.name else None
        except (OSError, ValueError, KeyError, TypeError):
            return None

    def keep(self, edit, where):
        if self.is_ours:
            try:
                with tempfile.NamedTemporaryFile("w", dir=self.at, delete=False, encoding="utf-8") as it:
                    json.dump({"edit": edit.name, "where": where}, it)
                os.replace(it.name, self.place(edit))
            except OSError:
                pass
