"""Headers of many forms: the table of inspect, and sizes at the limits."""

from fixture import KEY, SALT, SEED, for_keys, with_other_mac
from messages import message
from program import ProgramCase, fault, read, write

ZERO_SALT, ZERO_MAC = "A" * 22, "A" * 43


def header_of(stanzas):
    """A header of these lines, whose MAC is zero."""
    return f"age-encryption.org/v1\n{stanzas}--- {ZERO_MAC}\n".encode()


def header_in(file):
    """The header of a file."""
    return file[: file.index(b"\n", file.index(b"\n--- ") + 1) + 1]


def table(header, is_right=None):
    """The table of a header, computed from its lines; `is_right` is None if no file key is given."""
    version, *lines, mac, _ = header.decode().split("\n")
    stanzas = []
    for line in lines:
        if line.startswith("-> "):
            stanzas.append([line[3:], 0])
        else:
            stanzas[-1][1] += len(line)
    rows = [f"{i:4} {size * 3 // 4:8} {arguments}" for i, (arguments, size) in enumerate(stanzas)]
    check = {None: "none", True: "good", False: "bad"}[is_right]
    end = [f"mac {mac[4:]}", f"header {len(header)} bytes", f"check {check}", ""]
    return "\n".join([f"version {version}", f"stanzas {len(stanzas)}", *rows, *end]).encode()


class Tables(ProgramCase):
    def test_tables(self):
        """inspect prints the table, even if bytes follow the header; with -r it prints the header."""
        rows = [
            (76, "-> a\n\n"), (78, "-> a\nAA\n"), (150, f"-> scrypt {ZERO_SALT} 18\n{ZERO_MAC}\n"),
            (185, f"-> X25519 {ZERO_MAC}\n{ZERO_MAC}\n-> abc-grease x\n\n"),
            (242, f"-> example.org/key {ZERO_SALT}\n{ZERO_MAC}\n" * 2),
            (230, f"-> plug\n{'A' * 64}\n\n-> example.org/key {ZERO_SALT}\n{ZERO_MAC}\n"),
            (146, f"-> scrypt {ZERO_SALT} 015\nAAAA\n-> scrypt {ZERO_SALT}\n\n"),
        ]
        for size, stanzas in rows:
            with self.subTest(f"{size} bytes"):
                header = header_of(stanzas)
                self.assertEqual(len(header), size)
                self.writes(table(header), "inspect", input=header)
                self.writes(table(header), "inspect", input=header + b"xyz")
                self.writes(header, "inspect", "-r", input=header + b"xyz")

    def test_files_of_age(self):
        """The headers of files made by age."""
        for name in ("one_recipient", "three_recipients", "ssh_recipients", "passphrase"):
            with self.subTest(name):
                file = f"data/{name}.age"
                header = header_in(read(file))
                self.writes(header, "inspect", "-r", file)
                self.writes(table(header), "inspect", input=read(file))

    def test_checks(self):
        """With the file key, the last line says whether the MAC is right."""
        own, keyed, age, age_key = SEED[:16], for_keys(b"", KEY), read("data/passphrase.age"), read("data/passphrase.key")
        for is_right, title, file_key, file in (
            (True, "a key's file", own, keyed), (True, "a file of age", age_key, age), (False, "the salt as the key", SALT, keyed),
            (False, "the nonce as the key", SEED[16:32], keyed), (False, "another key", own, age), (False, "another MAC", age_key, with_other_mac(age)),
            (False, "another argument", own, keyed.replace(b"uLw\n", b"uLg\n")),
            (False, "zeros", bytes(16), header_of(f"-> scrypt {ZERO_SALT} 18\n{ZERO_MAC}\n")),
        ):
            with self.subTest(title):
                write("made.key", file_key)
                write("made", file)
                ran = self.run_agep("inspect", "-f", "made.key", "made")
                self.assert_ended(ran, int(not is_right), "" if is_right else fault(message("BadMac")), table(header_in(file), is_right))

    def test_great_headers(self):
        """Headers with many lines and with many arguments, up to the limit and above it."""
        rows = [
            ("65,536 bytes in 21,824 lines", header_of("-> a\n\n" * 10911), 65536, None),
            ("65,537 bytes", header_of("-> a\n\n" * 10910 + "-> aa\n\n"), 65537, message("HeaderTooLarge")),
            ("10,912 stanzas", header_of("-> a\n\n" * 10912), 65542, message("HeaderTooLarge")),
            ("30,000 arguments", header_of("->" + " a" * 30000 + "\n\n"), 60074, None),
        ]
        for title, header, size, line in rows:
            with self.subTest(title):
                self.assertEqual(len(header), size)
                if line:
                    self.says(line, "inspect", input=header)
                else:
                    self.writes(table(header), "inspect", input=header)

    def test_memory(self):
        """A header of 4 MiB is read if there is enough memory; otherwise the fault is out of memory."""
        write("great", header_of("-> a\n\n" * 699000))
        ran = self.run_agep("inspect", "-H", "16777216", "great")
        self.assert_ended(ran, 0, "", None)
        self.assertIn(b"\nstanzas 699000\n", ran.out)
        self.says(message("OutOfMemory"), "inspect", "-H", "16777216", "great", memory=8 << 20)


class Limits(ProgramCase):
    def test_limit(self):
        """Headers around the size given by -H, and lines cut right before or at it."""
        start = b"age-encryption.org/v1\n-> "
        exact, longer = header_of(f"-> {'a' * 949}\n\n"), header_of(f"-> {'a' * 950}\n\n")
        self.assertEqual((len(exact), len(longer)), (1024, 1025))
        self.writes(exact, "inspect", "-r", "-H", "1024", input=exact)
        rows = [("HeaderTooLarge", longer), ("HeaderTruncated", start + b"a" * 998), ("HeaderTooLarge", start + b"a" * 999)]
        for line, text in rows:
            for words in (("inspect",), ("decrypt", "-k", "key"), ("salvage", "-k", "key")):
                with self.subTest(f"{words[0]}: {line}: {len(text)} bytes"):
                    self.says(message(line), *words, "-H", "1024", input=text)
