# SPDX-License-Identifier: MIT
"""python3 -m taa1: the desk."""

import signal

if __name__ == "__main__":
    if signal.getsignal(signal.SIGINT) is signal.default_int_handler:
        signal.signal(signal.SIGINT, signal.SIG_DFL)  # it ends without a word, until main speaks

    import sys
    from importlib.util import find_spec

    from .library import repository

    if root := repository():
        sys.path.append(str(root / "desk"))
    if find_spec("taa1_desk") is None:
        said = "the module is here without the desk; `pip install .` in the repository installs both"
        print(f"taa1: {said}", file=sys.stderr)
        sys.exit(2)

    from taa1_desk.cli import main

    sys.exit(main())
