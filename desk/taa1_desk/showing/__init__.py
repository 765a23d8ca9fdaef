# SPDX-License-Identifier: MIT
"""Showing: mark sheets, the class, papers and the model as text, pages, JSON and tables."""
