"""Where the module finds its library, what it says where it finds none or another version, and that pip installs it with no network."""
import os
import pathlib
import shutil
import subprocess
import sys
import tempfile
import unittest

import prohunsev as ph

HERE = pathlib.Path(ph.__file__).resolve().parent
LIBRARY = pathlib.Path(ph._library._name)
ASKED = "import prohunsev; print(prohunsev._library._name)"
SONAME = "libprohunsev.so.0.2"


def ran(words, **more):
    """What a program said; `env` adds to the environment, from which what would lead to the library is gone."""
    gone = ("PROHUNSEV_LIBRARY", "LD_LIBRARY_PATH", "PYTHONPATH", "PYTHONUSERBASE")
    env = {**{k: v for k, v in os.environ.items() if k not in gone}, "PYTHONDONTWRITEBYTECODE": "1", **more.pop("env", {})}
    return subprocess.run([str(word) for word in words], capture_output=True, text=True, env=env, **more)


class Places(unittest.TestCase):
    def setUp(self):
        made = tempfile.TemporaryDirectory(prefix="pro hun sev ")  # a path with spaces
        self.addCleanup(made.cleanup)
        self.folder = pathlib.Path(made.name).resolve()

    def asked(self, **env):
        return ran([sys.executable, "-c", ASKED], cwd=self.folder, env={"HOME": str(self.folder), **env})

    def found(self, place, **env):
        """Puts the library at this place, and whether it is what is loaded."""
        place.parent.mkdir(parents=True, exist_ok=True)
        shutil.copy(LIBRARY, place)
        tried = self.asked(**env)
        self.assertEqual((tried.returncode, tried.stdout.strip(), tried.stderr), (0, str(place), ""))
        place.unlink()

    def test_in_turn(self):
        module = self.folder / "clone/python"
        module.mkdir(parents=True)
        shutil.copy(ph.__file__, module)
        env = {"PYTHONPATH": str(module), "PYTHONUSERBASE": str(self.folder / "user")}
        if not pathlib.Path(sys.prefix, "lib", SONAME).exists():
            self.found(self.folder / "user/lib" / SONAME, **env)
        self.found(self.folder / "clone/lib/libprohunsev.so", **env)
        self.found(module / "libprohunsev.so", **env)
        self.found(self.folder / "elsewhere.so", PROHUNSEV_LIBRARY="elsewhere.so", **env)

    def test_the_loader_finds_it(self):
        module = self.folder / "module"
        module.mkdir()
        shutil.copy(ph.__file__, module)
        if pathlib.Path(sys.prefix, "lib", SONAME).exists():
            self.skipTest("one is installed under this Python's prefix")
        shutil.copy(LIBRARY, self.folder / SONAME)
        tried = self.asked(PYTHONPATH=str(module), LD_LIBRARY_PATH=str(self.folder))
        self.assertEqual((tried.returncode, tried.stdout.strip(), tried.stderr), (0, SONAME, ""))

    def test_none(self):
        shutil.copy(ph.__file__, self.folder)
        if pathlib.Path(sys.prefix, "lib", SONAME).exists():
            self.skipTest("one is installed under this Python's prefix")
        tried = self.asked()
        self.assertEqual(tried.returncode, 1)
        self.assertIn("ImportError: the proved functions are not compiled yet, or not where this module looks: run tools/library", tried.stderr)
        self.assertIn(str(self.folder / "libprohunsev.so"), tried.stderr)

    def test_no_library_at_all(self):
        place = self.folder / "text.so"
        place.write_text("no library")
        tried = self.asked(PYTHONPATH=str(HERE), PROHUNSEV_LIBRARY=str(place))
        self.assertEqual(tried.returncode, 1)
        self.assertIn(f"ImportError: {place} cannot be loaded: ", tried.stderr)

    @unittest.skipUnless(shutil.which("cc"), "no C compiler")
    def test_another_version(self):
        source, place = self.folder / "other.c", self.folder / "other.so"
        for code, said in (("unsigned ph_version(void) { return 2003004; }", "is version 2.3.4, and this module is written for 0.2.0: run tools/library"),
                           ("int ph_median_of;", "has no ph_version, so it was made of older source than this module: run tools/library")):
            source.write_text(code)
            subprocess.run(["cc", "-shared", "-fPIC", str(source), "-o", str(place)], check=True)
            tried = self.asked(PYTHONPATH=str(HERE), PROHUNSEV_LIBRARY=str(place))
            self.assertEqual(tried.returncode, 1)
            self.assertIn(f"ImportError: {place} {said}", tried.stderr)


class Installed(unittest.TestCase):
    """pip, in an environment of its own, of copies of the source with and without the library in lib/."""

    @classmethod
    def setUpClass(cls):
        made = tempfile.TemporaryDirectory(prefix="pro hun sev ")
        cls.addClassCleanup(made.cleanup)
        cls.folder = pathlib.Path(made.name).resolve()
        cls.python = cls.folder / "env/bin/python"
        if ran([sys.executable, "-m", "venv", cls.folder / "env"]).returncode != 0:
            raise unittest.SkipTest("this Python makes no environment with pip in it")

    def setUp(self):
        (self.folder / "clone").mkdir()
        self.addCleanup(shutil.rmtree, self.folder / "clone", ignore_errors=True)
        shutil.copytree(HERE, self.folder / "clone/python", ignore=shutil.ignore_patterns("__pycache__"))
        for name in ("LICENSE-MIT", "LICENSE-APACHE", "NOTICE"):
            shutil.copy(HERE.parent / name, self.folder / "clone" / name)

    def pip(self, *words):
        # no index: whatever would have to be fetched is an error
        env = {"PIP_NO_INDEX": "1", "PIP_DISABLE_PIP_VERSION_CHECK": "1", "HOME": str(self.folder)}
        done = ran([self.python, "-m", "pip", *words], cwd=self.folder, env=env)
        self.assertEqual(done.returncode, 0, done.stdout + done.stderr)
        return done.stdout

    def gone(self):
        self.pip("uninstall", "--yes", "prohunsev")
        self.assertEqual(list((self.folder / "env").rglob("*prohunsev*")), [])

    def test_with_and_without_the_library(self):
        self.pip("install", self.folder / "clone/python")
        tried = ran([self.python, "-c", ASKED], cwd=self.folder, env={"HOME": str(self.folder)})
        self.assertIn("ImportError: the proved functions are not compiled yet", tried.stderr)
        # what is installed stands alone: the clone may go
        (self.folder / "clone/lib").mkdir()
        shutil.copy(LIBRARY, self.folder / "clone/lib/libprohunsev.so")
        self.pip("install", "--force-reinstall", "--no-build-isolation", "--no-deps", self.folder / "clone/python")
        shutil.rmtree(self.folder / "clone")
        tried = ran([self.python, "-c", ASKED], cwd=self.folder, env={"HOME": str(self.folder)})
        self.assertEqual((tried.returncode, tried.stderr), (0, ""))
        self.assertIn(self.folder / "env", pathlib.Path(tried.stdout.strip()).parents)
        shown = self.pip("show", "--files", "prohunsev")
        for line in ("Name: prohunsev", "Version: 0.2.0", "License: MIT OR Apache-2.0", "LICENSE-APACHE", "NOTICE", "libprohunsev.so"):
            self.assertIn(line, shown)
        self.gone()

    def test_editable(self):
        (self.folder / "clone/lib").mkdir()
        shutil.copy(LIBRARY, self.folder / "clone/lib/libprohunsev.so")
        self.pip("install", "--editable", self.folder / "clone/python")
        tried = ran([self.python, "-c", ASKED], cwd=self.folder, env={"HOME": str(self.folder)})
        self.assertEqual((tried.returncode, tried.stdout.strip(), tried.stderr), (0, str(self.folder / "clone/lib/libprohunsev.so"), ""))
        self.gone()


if __name__ == "__main__":
    unittest.main()
