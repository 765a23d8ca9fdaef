# SPDX-License-Identifier: MIT
"""The desk: the command `taa1` for setters, tutors and examiners, over the engine's calls."""
