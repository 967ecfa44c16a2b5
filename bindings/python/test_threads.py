"""Single calls and bulk calls in eight threads, which share texts and objects: each answer is the one that one thread finds. And which calls
let other threads run: those of many texts alone."""
from __future__ import annotations

import random
import sys
import threading
import time
from concurrent.futures import ThreadPoolExecutor

import fuzz

import uriparse

THREADS = 8
BASE = b"http://a/b/c/d;p?q"


def answer(call, *arguments):
    try:
        return call(*arguments)
    except uriparse.URIError as error:
        return error.code, error.place, error.argument


def answers(texts, shared):
    """What each call finds for each text, over texts, buffers and objects that other threads use too."""
    found = []
    for text, uri in zip(texts, shared):
        string = text.decode("latin-1")
        found.append((
            answer(uriparse.parse, text), answer(uriparse.normalize, string), answer(uriparse.resolve, BASE, text), answer(uriparse.equal, text, BASE),
            answer(uriparse.hash_of, bytearray(text)), answer(uriparse.replace, string, *()), answer(uriparse.with_pair, text, b"a", b"&"),
            answer(uriparse.without_pairs, string, "a", "b*"), answer(uriparse.pairs, text), answer(uriparse.escape, string)))
        if uri is not None:
            found.append((hash(uri), uri == shared[0], uri.host, uri.normalize(), str(uri.resolve("../x"))) if uri.scheme else uri.path)
    found.append(uriparse.normalize_many(texts))
    return found


def test_same(texts):
    shared = [uriparse.URI(text.decode("latin-1")) if uriparse.first_fault(text.decode("latin-1")) is None else None for text in texts]
    shared[0] = uriparse.URI("a")
    wanted = answers(texts, shared)
    start = threading.Barrier(THREADS)

    def work(_):
        start.wait()
        return all(answers(texts, shared) == wanted for _ in range(5))
    with ThreadPoolExecutor(THREADS) as pool:
        assert all(pool.map(work, range(THREADS)))


def test_buffers():
    """A bytearray keeps its length while a call reads it, and may change at all other times."""
    text = bytearray(b"http://h/" + b"a" * 2000)
    ended = threading.Event()

    def change():
        while not ended.is_set():
            text.extend(b"%41" * 50)
            del text[-150:]
    thread = threading.Thread(target=change)
    thread.start()
    try:
        for _ in range(20_000):
            assert uriparse.normalize(text).startswith(b"http://h/aaa")
            assert uriparse.normalize_many([text])[0].startswith(b"http://h/aaa")
    finally:
        ended.set()
        thread.join()


def ticks(call):
    """How often another thread runs during a call."""
    count, ended = [0], threading.Event()

    def tick():
        while not ended.is_set():
            count[0] += 1
            time.sleep(0.001)
    thread = threading.Thread(target=tick)
    thread.start()
    time.sleep(0.02)
    before = count[0]
    call()
    after = count[0]
    ended.set()
    thread.join()
    return after - before


def test_lock():
    """A call of many texts lets other threads run, and a call of one doesn't."""
    sys.setswitchinterval(1000)
    try:
        long = b"http://h/" + b"a/../" * 150_000
        assert ticks(lambda: [uriparse.normalize(long * 1) for _ in range(30)]) <= 1
        assert ticks(lambda: uriparse.normalize_many([long] * 30)) > 2
    finally:
        sys.setswitchinterval(0.005)


def main():
    draw = random.Random(7)
    texts = [fuzz.some_text(draw) for _ in range(400)]
    test_same(texts)
    test_buffers()
    test_lock()
    print("%d texts in %d threads" % (len(texts), THREADS))


main()
