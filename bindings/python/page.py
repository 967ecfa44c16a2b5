"""Runs the blocks of Python of README.md as doctests, and the redirect check of the page on the rows of tests/hostile.tsv. The last line that
is printed counts them. The status is 1 if one isn't as the page says."""
import doctest
import os
import re
import sys

HERE = os.path.dirname(os.path.abspath(__file__))
sys.path.insert(0, os.path.join(HERE, "../../tests"))
import model  # noqa: E402

PAGE = os.path.join(HERE, "README.md")


def is_right(row, check):
    """Whether the redirect check answers a row."""
    target = check(row.other, row.text, None if row.call == "redirect" else row.other)
    return (target is not None) is (row.answer == "yes")


def main():
    """The fences become empty lines, so that line numbers are the page's."""
    with open(PAGE, encoding="utf-8") as file:
        page = file.read()
    blocks = len(re.findall("^```python$", page, re.MULTILINE))
    runner = doctest.DocTestRunner()
    test = doctest.DocTestParser().get_doctest(re.sub("^```.*$", "", page, flags=re.MULTILINE), {}, "README.md", PAGE, 0)
    runner.run(test, clear_globs=False)
    rows = [row for row in model.read_rows() if row.call.startswith("redirect")]
    wrong = [row for row in rows if not is_right(row, test.globs["allowed_target"])]
    print("%d examples failed, %s" % (runner.failures, wrong) if runner.failures or wrong else "%d blocks, %d redirects" % (blocks, len(rows)))
    return bool(runner.failures) or not runner.tries or bool(wrong) or len(rows) < 60


sys.exit(main())
