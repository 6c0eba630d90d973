"""Keys of neighbours, and bundles that are sealed with them."""
import os
import pwd

from uuspool_calls import bundle, seals, settings
from uuspool_calls.errors import Failure

from .standins import SITE, Folder, Quiet
from .test_bundle import EXAMPLE, bundles

KEY, OTHER = "0a" * 32, "B1" * 32


class Seals(Folder):
    def setUp(self) -> None:
        super().setUp()
        self.owner = pwd.getpwuid(os.geteuid()).pw_name
        self.keys = seals.KeyFiles(f"{self.folder}/keys", self.owner)
        self.session = Quiet(self.folder)

    def add(self, *words: str, key: bytes = b"") -> list[str]:
        """What `uuspool-setup duke seal` prints."""
        self.session.printed.clear()
        found = settings.read(f"{SITE.format(self.folder)}seals {self.folder}/keys\n")
        source, target = os.pipe()
        os.write(target, key)
        os.close(target)
        kept = os.dup(0)
        try:
            os.dup2(source, 0)
            seals.add(self.session, found, self.owner, "duke", words)
        finally:
            os.dup2(kept, 0)
            os.close(kept)
            os.close(source)
        return self.session.printed

    def test_a_new_key_is_printed_for_the_neighbour_and_kept(self) -> None:
        _, line, key = self.add()
        self.assertEqual("uuspool-setup mysite seal -", line)
        self.assertRegex(key, "^[0-9a-f]{64}$")
        self.assertEqual(f"{key}\n".encode(), self.bytes_of("keys/duke"))
        self.assertEqual((0o700, 0o600), tuple(os.stat(f"{self.folder}/{it}").st_mode & 0o7777 for it in ("keys", "keys/duke")))
        self.assertEqual([], list(self.keys.faults("duke")))

    def test_keys_that_are_added_open_and_the_first_seals(self) -> None:
        self.assertEqual([], self.add("-", key=f"{KEY}\n".encode()))
        (told,) = self.add("-", key=OTHER.encode())
        self.assertIn("has earlier keys", told)
        self.assertEqual([KEY, OTHER], self.keys.keys("duke"))
        *_, key, _ = self.add()
        self.assertEqual([KEY, OTHER, key], self.keys.keys("duke"))

    def test_a_file_that_the_program_does_not_take(self) -> None:
        """Each of these lines ends a line of the program with an error."""
        odd = f"{self.folder}/keys/duke has a line that is no key, or more than a thousand, so no bundle"
        for text in KEY, f"{KEY}\r\n", f"{KEY}\n\n", f"# key\n{KEY}\n", f"{KEY}\nunsealed\n", f"{KEY}\x1c{OTHER}\n", f"{KEY}\n" * 1001:
            self.put("keys/duke", text, 0o600)
            self.assertEqual([odd], [it.partition(" goes")[0] for it in self.keys.faults("duke")], text[:80])
        self.put("keys/duke", f"{KEY}\n" * 1000, 0o600)
        self.assertEqual([], list(self.keys.faults("duke")))

    def test_a_neighbour_without_a_seal(self) -> None:
        self.add("none")
        self.assertTrue(self.keys.is_unsealed("duke"))
        self.assertEqual(([], []), (self.keys.keys("duke"), list(self.keys.faults("duke"))))
        self.add("-", key=KEY.encode())
        self.assertEqual(f"{KEY}\n".encode(), self.bytes_of("keys/duke"))

    def test_what_is_no_key(self) -> None:
        for key in b"", b"x" * 64, KEY[1:].encode(), f"{KEY}\n{OTHER}\n".encode():
            with self.assertRaisesRegex(Failure, "has no key"):
                self.add("-", key=key)
        with self.assertRaisesRegex(Failure, "usage"):
            self.add(KEY)
        with self.assertRaisesRegex(Failure, 'add the line seals = ".*/etc/seals"'):
            seals.add(self.session, settings.read(SITE.format(self.folder)), self.owner, "duke", [])
        self.assertFalse(os.path.exists(f"{self.folder}/keys"))

    def test_who_has_taylor_uucp_alone_gets_no_key(self) -> None:
        """(With one nothing of it would be taken.)"""
        for name in "taylor", "uucico":
            self.put(f"lib/uuspool/carriers/{name}", "#!/bin/sh\n", 0o755)
        entry = self.put("etc/calls/duke", "taylor --no-call\n")
        with self.assertRaisesRegex(Failure, f"duke has Taylor UUCP alone, as {entry} says, .* begin with uuspool-setup duke uucico"):
            self.add()
        self.assertEqual([], list(self.keys.faults("duke", True)))
        self.add("none")
        self.assertEqual([], list(self.keys.faults("duke", True)))
        self.put("etc/calls/duke", "uucico\n")
        self.add()
        self.assertEqual([f"{self.folder}/keys/duke has a key, and duke has Taylor UUCP alone, so that nothing it sends is taken: remove it as {self.owner}."], list(self.keys.faults("duke", True)))

    def test_faults_of_a_file(self) -> None:
        def only() -> str:
            (told,) = self.keys.faults("duke")
            return told

        self.assertIn("uuspool-setup duke seal makes a key", only())
        for text in "", "x\n", f"{KEY}0\n":
            self.put("keys/duke", text, 0o600)
            self.assertIn("has no key of 64 hex digits", only())
        self.put("keys/duke", f"{KEY}\n", 0o640)
        self.assertIn("chmod 600", only())
        self.put("keys/duke", f"{KEY}\n", 0o600)
        seen, other = os.lstat(f"{self.folder}/keys/duke"), pwd.getpwuid(1).pw_name
        if os.geteuid() == 0:
            self.assertIn(f"chown -h {other} /keys/duke; ", seals.giving("/keys/duke", other, seen))
        self.give(f"{self.folder}/keys/duke")
        self.assertIn(f"it is {other}'s, so move it away as {self.owner}", only())
        self.keys._is_named_by_root = False
        self.assertRegex(only(), f"alone: remove it as {self.owner}$")
        os.remove(f"{self.folder}/keys/duke")
        os.symlink("/etc/passwd", f"{self.folder}/keys/duke")
        self.assertIn(f"perhaps a link: remove it as {self.owner}.", only())

    def test_what_a_sealed_bundle_says(self) -> None:
        for text in b"", EXAMPLE, EXAMPLE * 500:
            sealed = bundles.sealed(bytes.fromhex(KEY), text)
            self.assertEqual(text, bundle.said_in(sealed))
            self.assertEqual(text, bundle.said_in(text))
            for end in range(0, min(len(sealed), 6000), 7):
                self.assertTrue(text.startswith(bundle.said_in(sealed[:end])[:4096] if sealed[:end].startswith(b"sealed ") else b""))
        self.assertEqual(3, bundle.last_job(bundles.sealed(bytes.fromhex(KEY), EXAMPLE)))
