# SPDX-License-Identifier: MIT
"""Marking: what is right, what follows, which slip explains what is wrong, and points.

What is right rests on the engine's calls. `working` is the step-by-step working, `slips` the
table of slips that are it, altered; `explain` searches that table. Nothing here knows pages.
"""
