# SPDX-License-Identifier: MIT
"""Setting: sittings and books from randomness, and books with flags to find."""
