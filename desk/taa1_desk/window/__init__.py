# SPDX-License-Identifier: MIT
"""The window: the day in pages. `day` is the logic, without a widget; the others are widgets, and thin."""
