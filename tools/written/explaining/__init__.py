"""What the answers of pdn mean, and how its help is written: shared by `explain`, `summary`, `make_help` and their tests.

None of it is part of the proved program. It reads the texts again, as far as it can, and says less where it cannot.
"""
