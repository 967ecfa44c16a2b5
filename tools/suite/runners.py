"""The runners: what builds each, what starts it, and what prints its version."""
from __future__ import annotations

import os
import re
import shutil
import subprocess
from typing import List, NamedTuple, Optional, Sequence

import form

HERE = os.path.dirname(os.path.abspath(__file__))
C = ["cc", "-std=c11", "-O1", "-Wall", "-Wextra", "-o"]
GLIB = " ".join(C) + " {out}/guri {peers}/guri.c $(pkg-config --cflags --libs glib-2.0)"
DEBIAN = ("/usr/bin/python3", "-I")
CPP = ["c++", "-std=c++11", "-O1", "-Wall", "-Wextra", "-o"]
GHC = ["ghc", "-O1", "-Wall", "-outputdir", "{out}", "-o"]
OXIRI = (
    "rustc --edition 2018 -O --cap-lints allow --crate-type rlib --crate-name oxiri --out-dir {out} /usr/share/cargo/registry/oxiri-*/src/lib.rs"
    " && rustc --edition 2021 -O -L {out} --extern oxiri -o {out}/oxiri {peers}/oxiri.rs"
)


class Runner(NamedTuple):
    """A library. In the commands {peers} is the folder of the runners, {out} one for what is built."""

    name: str
    build: Sequence[str]
    start: Sequence[str]
    version: Sequence[str]


def _of_package(name: str) -> Sequence[str]:
    return "dpkg-query", "--show", "--showformat=${Version}", name


PEERS = [
    Runner("Python's `urllib.parse`", (), ("python3", "-I", "{peers}/urllib.py"), ("python3", "--version")),
    Runner("Node's `URL`", (), ("node", "{peers}/url.mjs"), ("node", "--version")),
    Runner("Perl's `URI`", (), ("perl", "{peers}/uri.pl"), ("perl", "-MURI", "-e", "print $URI::VERSION")),
    Runner("Go's `net/url`", ("go", "build", "-o", "{out}/url", "{peers}/url.go"), ("{out}/url",), ("go", "version")),
    Runner("Java's `java.net.URI`", ("javac", "-d", "{out}", "{peers}/Uri.java"), ("java", "-cp", "{out}", "Uri"), ("javac", "-version")),
    Runner("uriparser", (*C, "{out}/uriparser", "{peers}/uriparser.c", "-luriparser"), ("{out}/uriparser",), ("pkg-config", "--modversion", "liburiparser")),
    Runner("libcurl", (*C, "{out}/curl", "{peers}/curl.c", "-lcurl"), ("{out}/curl",), ("pkg-config", "--modversion", "libcurl")),
    Runner("Ruby's `URI`", (), ("ruby", "{peers}/uri.rb"), ("ruby", "-ruri", "-e", "puts URI::VERSION")),
    Runner("Ruby's `Addressable`", (), ("ruby", "{peers}/uri.rb", "addressable"),
           ("ruby", "-raddressable/uri", "-e", "puts Addressable::VERSION::STRING")),
    Runner("Python's `rfc3986`", (), (*DEBIAN, "{peers}/rfc3986.py"), (*DEBIAN, "-c", "import rfc3986; print(rfc3986.__version__)")),
    Runner("GLib's `GUri`", ("sh", "-c", GLIB), ("{out}/guri",), ("pkg-config", "--modversion", "glib-2.0")),
    Runner("Boost.URL", (*CPP, "{out}/boost_url", "{peers}/boost_url.cpp", "-lboost_url"), ("{out}/boost_url",), _of_package("libboost-url1.81-dev")),
    Runner("Rust's `oxiri`", ("sh", "-c", OXIRI), ("{out}/oxiri",), _of_package("librust-oxiri-dev")),
    Runner("Haskell's `network-uri`", (*GHC, "{out}/uri_hs", "{peers}/NetworkUri.hs"), ("{out}/uri_hs",), _of_package("libghc-network-uri-dev")),
]


class Own(NamedTuple):
    """This library from a language: its runner, the files and programs that it needs, and whether it spells answers as the program does."""

    runner: Runner
    needs: Sequence[str]
    is_program: bool = False


def _python_of_sqlite() -> str:
    """A python3 whose sqlite3 loads extensions, if there is one."""
    for python in ("python3", "/usr/bin/python3"):
        asked = [python, "-c", "import sqlite3; sqlite3.Connection.load_extension"]
        if shutil.which(python) and not subprocess.run(asked, stderr=subprocess.DEVNULL).returncode:
            return python
    return "python3 whose sqlite3 loads extensions"


def _own(name: str, needs: Sequence[str], build: Sequence[str], *start: str) -> Own:
    return Own(Runner(name, build, start, ()), needs)


BINDINGS = os.path.join(form.TOP, "bindings")
LIBRARY = BINDINGS + "/c/out/liburiparse.a"
SQLITE = BINDINGS + "/sqlite/out/uri0.so"
PROGRAM = os.path.abspath(os.environ.get("URI", os.path.join(form.TOP, "crates/uri/out/uri")))
RUSTC = "rustc --edition 2021 -O -L native=%s/c/out " % BINDINGS
CRATE = RUSTC + "--crate-type rlib --crate-name uriparse_rattle --cfg 'feature=\"alloc\"' -l static=uriparse --out-dir {out} %s/rust/src/lib.rs" % BINDINGS
RUST = "%s && %s -L {out} --extern uriparse_rattle -o {out}/ours_rs %s/ours.rs" % (CRATE, RUSTC, HERE)
OURS = [
    _own("C", (LIBRARY, "cc"), (*C, "{out}/ours", HERE + "/ours.c", "-I" + BINDINGS + "/c", LIBRARY), "{out}/ours"),
    _own("JavaScript", (BINDINGS + "/web/uriparse.wasm", "node"), (), "node", HERE + "/ours.mjs"),
    _own("the program", (PROGRAM,), (), "python3", HERE + "/ours_program.py", PROGRAM)._replace(is_program=True),
    _own("SQLite", (SQLITE, _python_of_sqlite()), (), _python_of_sqlite(), HERE + "/ours_sqlite.py", SQLITE),
    _own("Rust", (LIBRARY, "rustc"), ("sh", "-c", RUST), "{out}/ours_rs"),
    _own("PostgreSQL", ("psql", *([] if "PGHOST" in os.environ else ["server that PGHOST names"])), (), "python3", HERE + "/ours_postgres.py"),
]


def _filled(command: Sequence[str], out: str) -> List[str]:
    return [word.format(peers=os.path.join(HERE, "peers"), out=out) for word in command]


def answers_of(runner: Runner, vectors: Sequence[form.Vector], out: str) -> Optional[List[str]]:
    """A line for each vector, or None if the runner can't be built or started here."""
    try:
        if runner.build:
            subprocess.run(_filled(runner.build, out), check=True, capture_output=True)
        lines = "".join(form.question_of(vector) + "\n" for vector in vectors)
        found = subprocess.run(_filled(runner.start, out), input=lines.encode(), check=True, stdout=subprocess.PIPE)
    except (OSError, subprocess.CalledProcessError):
        return None
    answers = found.stdout.decode("ascii").splitlines()
    assert len(answers) == len(vectors), "%s printed %d lines for %d vectors" % (runner.name, len(answers), len(vectors))
    return answers


def missing(own: Own) -> Optional[str]:
    """What isn't here of what a runner of this library needs."""
    return next((each for each in own.needs if not (os.path.exists(each) if os.path.isabs(each) else shutil.which(each))), None)


def version_of(runner: Runner) -> str:
    found = subprocess.run(runner.version, check=True, capture_output=True, text=True).stdout
    match = re.search(r"[0-9]+(\.[0-9]+)+", found)
    assert match is not None, found
    return match[0]


def by_name(name: str) -> Runner:
    """The peer whose name has this word."""
    found = [one for one in PEERS if name.lower() in one.name.lower()]
    if len(found) != 1:
        raise SystemExit("table: %d peers have %r in their names: %s" % (len(found), name, ", ".join(one.name for one in PEERS)))
    return found[0]
