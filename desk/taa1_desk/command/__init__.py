# SPDX-License-Identifier: MIT
"""The command line: arguments, files, folders, and what each command reads and writes."""
