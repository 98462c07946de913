"""What tools/prepare is made of: readers of the files that other tools write, and writers of the five texts that `pdn build` reads.

None of it is part of the proved program. What is changed, left out, guessed, passed over or missing is told in `changes`.
"""
