# SPDX-License-Identifier: MIT
"""Reading: what files say, as bytes alone: texts, books, forms of hand-ins, keys, schemes and lists.

Nothing here knows marks or pages, or opens a file.
"""
