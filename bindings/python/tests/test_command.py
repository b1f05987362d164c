"""The command: its statuses, its sentences, and what a stopped run leaves."""

import json
import os
import pty
import signal
import subprocess
import sys
import time
import unittest

from support import FolderTest, samples_of

PACKAGE = os.path.dirname(os.path.dirname(os.path.abspath(__file__)))


def obey_interrupts():
    """Undoes what a shell does for a job in the background: it ignores SIGINT, and so would what it starts."""
    signal.signal(signal.SIGINT, signal.SIG_DFL)


class Commands(FolderTest):
    def start(self, *words):
        how = {"stdout": subprocess.PIPE, "stderr": subprocess.PIPE, "cwd": self.room.name, "preexec_fn": obey_interrupts}
        return subprocess.Popen([sys.executable, "-m", "ccsds123", *words], env={**os.environ, "PYTHONPATH": PACKAGE}, **how)

    def run_words(self, *words):
        """Runs the command, and returns its status, its output, and what it said."""
        ran = self.start(*words)
        output, said = ran.communicate(timeout=60)
        return ran.returncode, output, said.decode()

    def test_a_scene_goes_in_and_out(self):
        self.scene()
        status, output, said = self.run_words("compress", "scene.hdr", "archive", "--rows", "6", "--bits", "12", "--jobs", "2")
        self.assertEqual((status, said), (0, ""))
        self.assertIn("840 bytes in 4 pieces", output.decode())
        self.assertEqual(self.run_words("expand", "archive", "again.img", "--quiet"), (0, b"", ""))
        self.assertEqual(self.read("again.img"), self.read("scene.img"))
        status, output, said = self.run_words("verify", "archive")
        self.assertEqual((status, len(output.splitlines()), said), (0, 4, ""))
        self.assertEqual(self.run_words("verify", "archive", "--quiet"), (0, b"", ""))

    def read_to_the_end(self, number):
        """Reads what was written to a terminal; the system ends it by an error."""
        found = b""
        with os.fdopen(number, "rb", buffering=0) as file:
            try:
                while part := file.read(1 << 12):
                    found += part
            except OSError:
                pass
        return found.decode()

    def test_bar_is_drawn_on_a_terminal_alone(self):
        self.scene()
        ours, theirs = pty.openpty()
        words = [sys.executable, "-m", "ccsds123", "compress", "scene.hdr", "archive", "--rows", "5"]
        subprocess.run(words, env={**os.environ, "PYTHONPATH": PACKAGE}, cwd=self.room.name, stdout=subprocess.DEVNULL, stderr=theirs, check=True)
        os.close(theirs)
        drawn = self.read_to_the_end(ours)
        self.assertIn("scene.img [", drawn)
        self.assertIn("100 %", drawn)

    def test_json_is_one_object_a_line(self):
        self.scene()
        told = json.loads(self.run_words("compress", "scene.hdr", "archive", "--json")[1])
        self.assertEqual((told["scene"], told["raw_bytes"], told["pieces"]), ("scene.img", 840, 1))
        self.assertEqual(json.loads(self.run_words("verify", "archive", "--json")[1])["status"], 0)
        self.assertGreater(len(json.loads(self.run_words("choose", "scene.hdr", "--json")[1])["tried"]), 4)

    def test_statuses_and_sentences(self):
        self.scene()
        self.write("float.hdr", self.read("scene.hdr").replace(b"data type = 12", b"data type = 4"))
        self.write("file", b"not a file")
        self.assertEqual(self.run_words("compress", "scene.hdr", "archive")[0], 0)
        os.mkdir(self.path("folder"))
        cases = [
            (["compress"], 1, "required"),
            (["compress", "scene.hdr", "new", "--rows", "0"], 1, "isn't a number of at least 1"),
            (["frobnicate"], 1, "invalid choice"),
            (["compress", "scene.hdr", "archive"], 2, "archive holds a finished archive; --force replaces it"),
            (["compress", "scene.hdr", "new", "--omega", "50"], 2, "scene.img, rows 0 to 19: 3 FieldRange Omega 50"),
            (["compress", "float.hdr", "new"], 2, "float.hdr: data type = 4"),
            (["compress", "lacking.hdr", "new"], 4, "lacking.hdr: No such file or directory"),
            (["compress", "scene.hdr", "scene.img"], 4, "scene.img: File exists"),
            (["expand", "folder", "again.img"], 2, "folder holds no finished archive"),
            (["expand", "archive", "scene.img"], 2, "scene.img exists; --force replaces it"),
            (["expand", "archive", "new.hdr"], 2, "name the raw file to write"),
            (["expand", "archive", "lacking/new.img"], 4, "lacking/new.img.partial: No such file or directory"),
            (["verify", "archive", "file", "lacking"], 4, "lacking: No such file or directory"),
            (["verify", "archive", "file"], 2, "file: 1 ShortHeader"),
            (["window", "archive", "--rows", "40:99"], 2, "rows 40:99 aren't within the scene, which has rows 0:20"),
            (["window", "archive", "--bands", "9"], 2, "archive has bands 0 to 2"),
            (["window", "archive", "--bands", "a"], 1, "isn't two numbers"),
            (["choose", "float.hdr"], 2, "float.hdr: data type = 4"),
        ]
        for words, wanted, sentence in cases:
            status, _, said = self.run_words(*words)
            self.assertEqual(status, wanted, (words, said))
            self.assertIn(sentence, said)
            self.assertNotIn("Traceback", said)
        self.assertFalse(os.path.exists(self.path("new")))

    def test_full_disk_is_told_with_the_name_of_the_file(self):
        self.scene()
        for words in (["compress", "scene.hdr", "archive"], ["expand", "whole", "again.img"]):
            self.run_words("compress", "scene.hdr", "whole")
            command = ["bash", "-c", 'ulimit -f 0; exec "$@"', "bash", sys.executable, "-m", "ccsds123", *words]
            ran = subprocess.run(command, env={**os.environ, "PYTHONPATH": PACKAGE}, cwd=self.room.name, capture_output=True, check=False)
            self.assertEqual(ran.returncode, 4)
            self.assertRegex(ran.stderr.decode(), r"^ccsds123: (archive/rows-|again.img).*: File too large\n$")
        self.assertEqual(sorted(os.listdir(self.room.name)), ["scene.hdr", "scene.img", "whole"])

    def test_window_goes_to_a_file_or_to_standard_output(self):
        self.scene()
        self.run_words("compress", "scene.hdr", "archive", "--rows", "6")
        status, output, said = self.run_words("window", "archive", "--rows", "4:7", "--columns", "1:3", "--bands", "0,2")
        self.assertEqual((status, len(output), said), (0, 3 * 2 * 2 * 2, ""))
        self.run_words("window", "archive", "--rows", "4:7", "--columns", "1:3", "--bands", "0,2", "--output", "part.img")
        self.assertEqual(self.read("part.img"), output)
        self.assertIn(b"samples = 2\nlines = 3\nbands = 2\n", self.read("part.hdr"))

    def test_library_that_is_missing_is_told(self):
        self.scene()
        os.environ["CCSDS123_LIBRARY"], kept = self.path("no.so"), os.environ.get("CCSDS123_LIBRARY")
        try:
            status, _, said = self.run_words("compress", "scene.hdr", "archive")
        finally:
            del os.environ["CCSDS123_LIBRARY"]
            os.environ.update({"CCSDS123_LIBRARY": kept} if kept else {})
        self.assertEqual(status, 4)
        self.assertRegex(said, "the library .*no.so can't be loaded .*make lib")

    def stopped(self, number):
        """Starts to replace an archive, stops the run by a signal once it has written a piece, and returns its status and what it said.

        On a busy machine a run may end before the signal comes: then the archive is made again, and a longer scene is tried."""
        for rows in (600, 2_400, 9_600):
            self.write("long.img", samples_of(4, rows, 2, "bil").tobytes())
            sizes = f"samples = 4\nlines   = {rows}\nbands   = 2".encode()
            self.write("long.hdr", self.read("scene.hdr").replace(b"samples = 7\nlines   = 20\nbands   = 3", sizes))
            ran = self.start("compress", "long.hdr", "archive", "--rows", "1", "--force", "--jobs", "2")
            before, end = len(os.listdir(self.path("archive"))), time.monotonic() + 20
            while len(os.listdir(self.path("archive"))) <= before and time.monotonic() < end:
                time.sleep(0.002)
            ran.send_signal(number)
            _, said = ran.communicate(timeout=60)
            if ran.returncode != 0:
                return ran.returncode, said.decode()
            self.run_words("compress", "scene.hdr", "archive", "--rows", "6", "--force")
        return self.fail("each run ended before its signal came")

    def test_a_stopped_run_leaves_the_archive_that_was_there(self):
        self.scene()
        self.run_words("compress", "scene.hdr", "archive", "--rows", "6")
        files = sorted(os.listdir(self.path("archive")))
        self.assertEqual(self.stopped(signal.SIGKILL)[0], -signal.SIGKILL)
        self.assertEqual(self.run_words("verify", "archive", "--quiet"), (0, b"", ""))
        for number in (signal.SIGINT, signal.SIGTERM):
            self.assertEqual(self.stopped(number), (128 + number, "ccsds123: stopped; no archive and no scene was changed\n"))
            self.assertEqual(sorted(os.listdir(self.path("archive"))), files)
            self.assertEqual(self.run_words("verify", "archive", "--quiet"), (0, b"", ""))


if __name__ == "__main__":
    unittest.main()
