"""A kit like the machine's, with a few of its programs replaced: so what `rt try` gives to clang and to the linker can be kept."""
import shutil
import subprocess
from pathlib import Path

KIT = Path(subprocess.check_output(['rt', 'doc'], text=True).strip()).parent


# `rt try` begins a check for a hint beside what it compiles, which takes as long
RATTLE = f"""#!/bin/sh
case "$*" in *'--start no function'*) exit 0 ;; esac
exec {KIT}/bin/rattle "$@"
"""


def kit_in(room, replaced):
    """Makes the kit in a folder: `replaced` has the text of each program of its toolchain that isn't the machine's."""
    kit = room / 'kit'
    (kit / 'toolchain/bin').mkdir(parents=True)
    for it in KIT.iterdir():
        if it.name not in ('bin', 'toolchain'):
            (kit / it.name).symlink_to(it)
    shutil.copytree(KIT / 'bin', kit / 'bin')
    (kit / 'bin/rattle').unlink()
    (kit / 'toolchain/lib').symlink_to(KIT / 'toolchain/lib')
    for it in (KIT / 'toolchain/bin').iterdir():
        if it.name not in replaced:
            (kit / 'toolchain/bin' / it.name).symlink_to(it)
    for name, text in {'bin/rattle': RATTLE, **{f'toolchain/bin/{it}': replaced[it] for it in replaced}}.items():
        path = kit / name
        path.write_text(text)
        path.chmod(0o755)
    return kit
