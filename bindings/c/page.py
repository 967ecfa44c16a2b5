"""Readies the code of README.md to run.

    page.py FILE        writes the blocks of C to FILE.c as one program, and what their comments `// prints ..` say to FILE.txt;
                        the blocks in other languages must stand in test.cpp, test_hpp.cpp and test.go, which are run

The redirect check of the page is also tried on the rows of tests/hostile.tsv.

The last line that is printed counts the blocks. The status is 1 if one isn't as the page says."""
import os
import re
import sys

HERE = os.path.dirname(os.path.abspath(__file__))
sys.path.insert(0, os.path.join(HERE, "../../tests"))
import model  # noqa: E402

TESTS = {"cpp": ("test.cpp", "test_hpp.cpp"), "go": ("test.go",)}
FUNCTION = re.compile(r"^(?!for|if|while)\w[^;]*\) \{$", re.MULTILINE)
HEAD = '#include "uriparse.h"\n#include <stdio.h>\n#include <stdlib.h>\n#include <string.h>\n\n'
WRONG = """static char *wrong(const char *page, const char *location, const char *directory, bool is_right) {
  char *target = allowed_target(page, location, directory);
  if ((target != NULL) != is_right) printf("wrong: %s\\n", location);
  return target;
}

"""


def read(name):
    with open(os.path.join(HERE, name), encoding="utf-8") as file:
        return file.read()


def blocks(page, language):
    return re.findall(r"^```%s\n(.*?)^```$" % language, read(page), re.MULTILINE | re.DOTALL)


def redirects():
    """Calls of the page's redirect check with the rows of tests/hostile.tsv, each of which prints a wrong answer."""
    def literal(text):
        return '"%s"' % "".join(chr(byte) if 32 <= byte < 127 and byte not in b'\\"?' else "\\%03o" % byte for byte in text.encode())
    rows = [row for row in model.read_rows() if row.call.startswith("redirect")]
    return "".join("  free(wrong(%s, %s, %s, %d));\n" % (literal(row.other), literal(row.text), "NULL" if row.call == "redirect" else literal(row.other),
                                                      row.answer == "yes") for row in rows), len(rows)


def write_c(name):
    """A block that defines functions stays as it is; another becomes the body of one."""
    found = blocks("README.md", "c")
    text, calls = HEAD, ""
    for number, block in enumerate(found):
        if FUNCTION.search(block):
            text += block + "\n"
        else:
            text += "static void block_%d(void) {\n%s}\n\n" % (number, block)
            calls += "  block_%d();\n" % number
    checks, count = redirects()
    with open(name + ".c", "w", encoding="utf-8") as file:
        file.write("%s%sint main(void) {\n%s%s  return 0;\n}\n" % (text, WRONG, calls, checks))
    with open(name + ".txt", "w", encoding="utf-8") as file:
        file.writelines(line + "\n" for block in found for line in re.findall("// prints (.*)$", block, re.MULTILINE))
    shown = [(tests, block) for language, tests in TESTS.items() for block in blocks("README.md", language)]
    missing = [block for tests, block in shown if not any(block in read(test) for test in tests)]
    print("\n".join(missing) if missing else "%d blocks of C, and %d in other languages, %d redirects" % (len(found), len(shown), count))
    return bool(missing) or not found or not shown or count < 60


sys.exit(write_c(sys.argv[1]))
