# Makes the comments of the header such that Doxygen reads them: the first one is of the file, one that stands behind code is of
# that code, and one that opens a line is of what follows. Headings of sections and the license stay as they are.
/^\/\* SPDX/b
/^\/\* ----/b
s|^/\* Yarrowdoor: |/** \\file yarrowdoor.h\n   |
s|^\( *\)/\* |\1/** |
s|\([;,{0-9a-zA-Z)] *\)/\* |\1/**< |
