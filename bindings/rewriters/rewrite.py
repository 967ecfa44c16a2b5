"""Makes the links of a page absolute: rewrite.py BASE < PAGE. A link that is no URI stays."""
import re
import sys

import uriparse


def absolute(found):
    try:
        return b'href="%s"' % uriparse.resolve(sys.argv[1].encode(), uriparse.escape(found[1]))
    except uriparse.URIError:
        return found[0]


sys.stdout.buffer.write(re.sub(b'href="([^"]*)"', absolute, sys.stdin.buffer.read()))
