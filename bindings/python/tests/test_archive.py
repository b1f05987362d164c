"""Archives: what goes in comes out, and what is wrong is told."""

import fcntl
import json
import os
import stat
import unittest

from support import FolderTest, value_of

from ccsds123 import envi
from ccsds123.archive import ArchiveError, compress, expand, read_index, verify, window
from ccsds123.archive.choose import choose

INTERLEAVES = ("bsq", "bil", "bip")


class Archives(FolderTest):
    def archive(self, **words):
        """Makes an archive of a scene of the tests, and returns its folder."""
        header = self.scene(**words)
        compress(header, self.path("archive"), rows=6, jobs=2, options={"bits": 12})
        return self.path("archive")

    def test_scene_and_header_come_back(self):
        for interleave in INTERLEAVES:
            for data_type, front in ((12, b""), (2, b"in front"), (1, b"")):
                name = f"{interleave}{data_type}"
                header = self.scene(name, interleave=interleave, data_type=data_type, front=front)
                index = compress(header, self.path(name), rows=6)
                self.assertEqual([(it.first_row, it.rows) for it in index.pieces], [(0, 6), (6, 6), (12, 6), (18, 2)])
                expand(self.path(name), self.path(name + "_again.img"))
                self.assertEqual(self.read(name + "_again.img"), self.read(name + ".img"))
                self.assertEqual(self.read(name + "_again.hdr"), self.read(name + ".hdr"))
                self.assertEqual([it.status for it in verify(self.path(name))], [0] * (4 + bool(front)))

    def test_header_comes_back_byte_by_byte(self):
        header = self.scene()
        self.write("scene.hdr", self.read("scene.hdr").replace(b"\n", b"\r\n").replace(b"of the tests", b"of Z\xfcrich"))
        compress(header, self.path("archive"))
        expand(self.path("archive"), self.path("again.img"))
        self.assertEqual(self.read("again.hdr"), self.read("scene.hdr"))

    def test_permissions_are_kept(self):
        header = self.scene()
        os.chmod(self.path("scene.img"), 0o640)
        compress(header, self.path("archive"), rows=10)
        expand(self.path("archive"), self.path("again.img"))
        for name in ("again.img", "archive/index.json", "archive/" + read_index(self.path("archive")).pieces[0].file):
            self.assertEqual(stat.S_IMODE(os.stat(self.path(name)).st_mode), 0o640)

    def test_finished_archive_is_replaced_only_by_force(self):
        folder = self.archive()
        before = self.read("archive/index.json")
        with self.assertRaisesRegex(ArchiveError, "holds a finished archive; --force"):
            compress(self.path("scene.hdr"), folder)
        self.assertEqual(self.read("archive/index.json"), before)
        compress(self.path("scene.hdr"), folder, rows=9, force=True)
        self.assertEqual(sorted(os.listdir(folder)), sorted([*read_index(folder).files(), "index.json"]))
        self.assertEqual([it.status for it in verify(folder)], [0, 0, 0])

    def test_refused_run_leaves_what_was_there(self):
        folder = self.archive()
        before = sorted(os.listdir(folder))
        with self.assertRaisesRegex(ArchiveError, r"scene.img, rows .*more bits than --bits says \(13 SampleRange"):
            compress(self.path("scene.hdr"), folder, force=True, options={"bits": 4, "k": 2})
        self.assertEqual(sorted(os.listdir(folder)), before)
        self.assertEqual([it.status for it in verify(folder)], [0] * 4)
        with self.assertRaises(ArchiveError):
            compress(self.path("scene.hdr"), self.path("new"), options={"bits": 4, "k": 2})
        self.assertFalse(os.path.exists(self.path("new")))

    def test_what_a_killed_run_left_is_swept(self):
        folder = self.archive()
        self.write("archive/rows-00000-00003-0123456789abcdef.ccsds.partial", b"cut")
        self.write("archive/rows-00000-00003-0123456789abcdef.ccsds", b"of no index")
        self.assertEqual([it.status for it in verify(folder)], [0] * 4)
        compress(self.path("scene.hdr"), folder, rows=20, force=True)
        self.assertEqual(len(os.listdir(folder)), 2)

    def test_other_folders_are_left_alone(self):
        self.scene()
        os.mkdir(self.path("photos"))
        self.write("photos/cat.jpg", b"cat")
        for force in (False, True):
            with self.assertRaisesRegex(ArchiveError, "holds other files, such as cat.jpg"):
                compress(self.path("scene.hdr"), self.path("photos"), force=force)
        self.assertEqual(os.listdir(self.path("photos")), ["cat.jpg"])

    def test_two_runs_do_not_share_a_folder(self):
        folder = self.archive()
        number = os.open(folder, os.O_RDONLY)
        fcntl.flock(number, fcntl.LOCK_EX)
        with self.assertRaisesRegex(ArchiveError, "is being written by another run"):
            compress(self.path("scene.hdr"), folder, force=True)
        os.close(number)
        self.assertEqual([it.status for it in verify(folder)], [0] * 4)

    def test_scenes_that_do_not_fit_their_header_are_refused(self):
        header = self.scene()
        raw = self.read("scene.img")
        for data, said in ((raw[:-1], "scene.img has 839 bytes and is shorter than"), (raw + b"\0", "scene.img has 841 bytes and is longer than")):
            self.write("scene.img", data)
            with self.assertRaisesRegex(envi.EnviError, said):
                compress(header, self.path("archive"))
        self.assertFalse(os.path.exists(self.path("archive")))


class Damage(FolderTest):
    def setUp(self):
        super().setUp()
        compress(self.scene(), self.path("archive"), rows=6, options={"bits": 12})
        self.files = read_index(self.path("archive")).files()

    def found(self):
        return [(it.status, it.said) for it in verify(self.path("archive"))]

    def test_each_flipped_bit_is_seen(self):
        name = "archive/" + self.files[1]
        whole = self.read(name)
        for at in range(0, 8 * len(whole), 97):
            damaged = bytearray(whole)
            damaged[at // 8] ^= 1 << at % 8
            self.write(name, bytes(damaged))
            found = self.found()
            self.assertEqual([status for status, _ in found], [0, 2, 0, 0])
            self.assertIn("its SHA-256 isn't the one of the index", found[1][1])
        with self.assertRaisesRegex(ArchiveError, "is damaged"):
            expand(self.path("archive"), self.path("again.img"))
        self.assertFalse(os.path.exists(self.path("again.img")) or os.path.exists(self.path("again.img.partial")))

    def test_missing_and_cut_files_are_seen(self):
        os.unlink(self.path("archive/" + self.files[0]))
        self.write("archive/" + self.files[2], self.read("archive/" + self.files[2])[:-1])
        found = self.found()
        self.assertEqual([status for status, _ in found], [2, 0, 2, 0])
        self.assertEqual(found[0][1], "is missing")
        self.assertIn("and the index says", found[2][1])

    def test_samples_are_compared_too(self):
        index = json.loads(self.read("archive/index.json"))
        index["pieces"][3]["raw_sha256"] = 64 * "0"
        self.write("archive/index.json", json.dumps(index))
        self.assertIn("aren't those that were coded", self.found()[3][1])

    def test_wrong_indexes_are_refused(self):
        index = json.loads(self.read("archive/index.json"))
        first = index["pieces"][0]
        wrong = [
            {**index, "version": 2}, {**index, "pieces": index["pieces"][1:]}, {**index, "pieces": index["pieces"][::-1]}, {**index, "mode": "rw"},
            {**index, "pieces": [{**first, "file": "../../scene.img"}, *index["pieces"][1:]]}, {**index, "header": "ENVI"}, {"format": "x"}, [], 7,
            {**index, "pieces": [{**first, "file_sha256": "00"}, *index["pieces"][1:]]}, {**index, "raw_bytes": 1},
        ]
        for it in wrong:
            self.write("archive/index.json", json.dumps(it))
            with self.assertRaisesRegex(ArchiveError, "index.json isn't the index of an archive"):
                read_index(self.path("archive"))
            self.assertEqual([status for status, _ in self.found()], [2])
        self.write("archive/index.json", "{")
        self.assertRaises(ArchiveError, read_index, self.path("archive"))
        os.unlink(self.path("archive/index.json"))
        with self.assertRaisesRegex(ArchiveError, "holds no finished archive"):
            read_index(self.path("archive"))


class Windows(FolderTest):
    def test_window_has_its_samples(self):
        for interleave in INTERLEAVES:
            compress(self.scene(interleave=interleave), self.path(interleave), rows=6)
            header, raw = window(self.path(interleave), (4, 13), (2, 5), [2, 0])
            self.assertEqual((header.columns, header.rows, header.bands, header.interleave), (3, 9, 2, interleave))
            samples = memoryview(raw).cast("H", shape=header.shape())
            place = {"bsq": lambda z, y, x: (z, y, x), "bil": lambda z, y, x: (y, z, x), "bip": lambda z, y, x: (y, x, z)}[interleave]
            for z in range(2):
                for y in range(9):
                    for x in range(3):
                        self.assertEqual(samples[place(z, y, x)], value_of([2, 0][z], y + 4, x + 2))

    def test_only_the_pieces_of_the_window_are_read(self):
        compress(self.scene(), self.path("archive"), rows=6)
        for piece in read_index(self.path("archive")).pieces[2:]:
            os.unlink(self.path("archive/" + piece.file))
        self.assertEqual(len(window(self.path("archive"), (3, 12))[1]), 9 * 7 * 3 * 2)
        self.assertRaises(ArchiveError, window, self.path("archive"), (3, 13))

    def test_windows_outside_the_scene_are_refused(self):
        compress(self.scene(), self.path("archive"))
        for words in ({"rows": (0, 21)}, {"rows": (5, 5)}, {"columns": (7, 8)}, {"bands": [3]}, {"bands": []}):
            self.assertRaises(ArchiveError, window, self.path("archive"), **words)


class Choosing(FolderTest):
    def test_sets_are_tried_and_the_best_is_first(self):
        found = choose(self.scene(), rows=10, options={"bits": 12})
        self.assertEqual((found.first_row, found.rows, found.bits, found.doubts), (5, 10, 8, []))
        self.assertEqual([it.ratio for it in found.tried], sorted((it.ratio for it in found.tried), reverse=True))
        self.assertEqual(sorted(it.options["bits"] for it in found.tried), [8, *[12] * (len(found.tried) - 1)])

    def test_a_wrong_byte_order_is_doubted(self):
        header = self.scene(columns=40, rows=40)
        with open(header, encoding="utf-8") as file:
            text = file.read()
        self.write("scene.hdr", text.replace("byte order = 0", "byte order = 9").replace("byte order = 1", "byte order = 0").replace("order = 9", "order = 1"))
        self.assertRegex(choose(header).doubts[0], "byte order")


if __name__ == "__main__":
    unittest.main()
