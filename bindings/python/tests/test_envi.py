"""ENVI headers."""

import unittest

from support import FolderTest, header_text

from ccsds123 import envi


class Headers(FolderTest):
    def test_each_field_is_read(self):
        header = envi.parse(header_text(7, 20, 3, "bil", 2, 1, 128))
        self.assertEqual((header.columns, header.rows, header.bands, header.interleave), (7, 20, 3, "bil"))
        self.assertEqual((header.data_type, header.sample_bytes, header.signed, header.byteorder, header.offset), (2, 2, True, "big", 128))
        self.assertEqual(header.others["description"], "{\n  a scene of the tests, lines = 3 }")
        self.assertEqual((header.row_bytes, header.length, header.shape()), (42, 840, (20, 3, 7)))

    def test_names_and_ends_of_lines_vary(self):
        header = envi.parse("ENVI\r\n; a comment\r\nSamples=4\r\nLINES = 5\r\n bands =6\r\ndata type = 1\r\nInterleave = BIP\r\n")
        self.assertEqual((header.columns, header.rows, header.bands, header.interleave, header.offset), (4, 5, 6, "bip", 0))

    def test_what_is_written_is_read(self):
        for interleave, data_type, order in (("bsq", 1, 0), ("bil", 2, 1), ("bip", 12, 0)):
            header = envi.parse(header_text(7, 20, 3, interleave, data_type, order, 5))
            envi.write(self.path("copy.hdr"), header)
            self.assertEqual(envi.read(self.path("copy.hdr")), header)

    def test_part_keeps_the_layout_alone(self):
        part = envi.parse(header_text(7, 20, 3, "bil", offset=9)).part(2, 3, 1)
        self.assertEqual((part.columns, part.rows, part.bands, part.offset, part.interleave, part.others), (2, 3, 1, 0, "bil", {}))

    def test_wrong_headers_are_refused_by_their_file(self):
        usual = header_text(7, 20, 3, "bil")
        wrong = [
            ("PNG", "isn't an ENVI header"),
            (usual.replace("lines   = 20", ""), "has no field 'lines'"),
            (usual.replace("= 20", "= many"), "'lines = many' isn't a whole number"),
            (usual.replace("= 20", "= 70000"), "lines = 70000, and a file holds 1 to 65536"),
            (usual.replace("= bil", "= tiled"), "interleave = tiled"),
            (usual.replace("byte order = 0", "byte order = 2"), "byte order = 2"),
            (usual.replace("byte order = 0", ""), "has no field 'byte order'"),
            (usual + "file compression = 1\n", "compressed already"),
            (usual.replace("data type = 12", "data type = 4"), "scale to 16-bit integers"),
            (usual.replace("data type = 12", "data type = 3"), "convert to data type = 1, 2 or 12"),
            (usual.replace("data type = 12", "data type = 77"), "unknown kind"),
        ]
        for text, said in wrong:
            path = self.write("wrong.hdr", text)
            with self.assertRaises(envi.EnviError) as caught:
                envi.read(path)
            self.assertIn(said, str(caught.exception))
            self.assertTrue(str(caught.exception).startswith(path))

    def test_raw_file_is_found_beside_its_header(self):
        for raw, header in (("a.img", "a.hdr"), ("b", "b.hdr"), ("c.bil", "c.bil.hdr"), ("d.RAW", "d.HDR"), ("e.dat", "e.hdr")):
            self.write(raw, b"")
            self.write(header, b"")
            self.assertEqual(envi.raw_file_of(self.path(header)), self.path(raw))
        self.write("lone.hdr", b"")
        with self.assertRaisesRegex(envi.EnviError, "no raw file beside it"):
            envi.raw_file_of(self.path("lone.hdr"))


if __name__ == "__main__":
    unittest.main()
