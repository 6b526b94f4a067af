"""Takes a block from a page, or looks for what is printed: page_blocks.py PAGE NUMBER, page_blocks.py PAGE < TEXT

The first prints the block with this number, from 1. The second prints whether one block of the page, alone or as a part of it, is the text, as it is without
blanks at the ends of its lines.
"""
import os
import re
import sys

with open(os.path.join(os.environ["ROOT"], sys.argv[1]), encoding="utf-8") as page:
    blocks = re.findall(r"^```\w*\n(.*?)^```$", page.read(), re.DOTALL | re.MULTILINE)
if len(sys.argv) > 2:
    print(blocks[int(sys.argv[2]) - 1], end="")
else:
    text = "\n" + re.sub(" +$", "", sys.stdin.read(), flags=re.MULTILINE)
    found = len(text) > 1 and any(text in "\n" + block for block in blocks)
    print(f"{sys.argv[1]}: shown" if found else f"{sys.argv[1]} doesn't show{text}")
