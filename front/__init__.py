"""The front of `ia64`: what it does with files.

It reads files of every kind in which code for Itanium stands, cuts their functions out, asks the proved program about them,
and words the answers. It is no part of the proved program, and nothing is proved of it. Each verdict and state comes from that
program, and so does the text of each instruction that it takes. What is cut out of a file, what stands in for instructions that
the program doesn't take, and their texts, which are GNU's, rest on the front.

It needs Python 3.8 and its standard library alone.
"""

VERSION = "1.0"
