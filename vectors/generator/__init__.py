# SPDX-License-Identifier: MIT
"""What makes the test vectors: one module for each family of calls."""
