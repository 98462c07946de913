"""What the tools share: readers of the files that pdn writes, and what pictures and comparisons are made of.

None of it is part of the proved program. It takes what stands in the files, and claims nothing beyond them.
"""
