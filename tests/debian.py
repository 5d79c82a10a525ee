#!/usr/bin/env python3
"""Installs Debian's package in a Debian 12 that has no toolchain, and uses it there.

    tests/debian.py [ROOT]

The package is made of what was proved here, by `make dist`. ROOT is a bare root, which
`debootstrap` makes where it isn't there (700 MB, from Debian's mirrors); it is outside the checkout,
where `rt ci` takes no links.
Where debootstrap isn't installed or reaches no mirror, or this isn't run by root, it says so, and
tries nothing."""
import glob
import os
import re
import shutil
import subprocess
import sys

ROOT = os.path.dirname(os.path.dirname(os.path.abspath(__file__)))
HERE = os.path.expanduser("~/.cache/fzcheck/debian")
PACKAGES = "bash-completion,man-db,minizinc,python3,zsh"
# The root has a /proc of its own, which MiniZinc needs; both are gone with the last process.
ENTER = ('mount -t proc proc "$0/proc" && exec env -i HOME=/root TERM=dumb MANWIDTH=80 '
         'PATH=/usr/sbin:/usr/bin:/sbin:/bin chroot "$0" bash -c "$1"')
SCRIPT = r"""
exec 2>&1
dpkg --install /tmp/fzcheck.deb >/dev/null || exit
cd /usr/share/doc/fzcheck/examples
cat >/tmp/model.mzn <<'END'
var 1..9: x;
constraint x > 3;
solve minimize x;
END
echo "= toolchain"; command -v rt rattle clang cc
echo "= example"; fzcheck check first.fzn first.out
echo "= module"; python3 -c 'import fzcheck; print(fzcheck.check("first.fzn", "first.out").text)'
echo "= manual"; man fzcheck | sed -n 4p
echo "= checked"; fzcheck-configure gecode >/dev/null
FZCHECK_VERBOSE=1 minizinc --solver gecode-checked /tmp/model.mzn
echo "= mzn"; minizinc /tmp/model.mzn | fzcheck-mzn /tmp/model.mzn; echo "status $?"
echo "= bash"; . /usr/share/bash-completion/bash_completion; _completion_loader fzcheck
COMP_WORDS=(fzcheck check --ex); COMP_CWORD=2; _fzcheck; echo "${COMPREPLY[@]}"
echo "= zsh"; zsh -f -c 'autoload -U compinit; compinit -D; echo $_comps[fzcheck]'
echo "= verified"; dpkg --verify fzcheck
echo "= left"; dpkg --purge fzcheck >/dev/null; rm -rf /root/.minizinc /root/.cache
find / -xdev -name "*fzcheck*" -not -path "/tmp/*" -not -path "/var/cache/*"
"""
# What each part of it has to print: all of it, or a part where that is told.
WHOLE = {
    "toolchain": "",
    "example": "block 1: satisfied\naccepted: blocks 1\n",
    "module": "block 1: satisfied\naccepted: blocks 1\n\n",
    "bash": "--explain --explain=all --explain=every\n",
    "zsh": "_fzcheck\n",
    "verified": "",
    "left": "",
}
PARTS = {
    "manual": "fzcheck",
    "checked": "fzcheck: accepted: blocks 1",
    "mzn": "status 0",
}


def has_root(root: str) -> bool:
    """Whether there is a bare Debian, or one can be made."""
    if not os.path.exists(f"{root}/is-made"):
        shutil.rmtree(root, ignore_errors=True)
        os.makedirs(root)
        ran = subprocess.run(("debootstrap", "--variant=minbase", f"--include={PACKAGES}",
                              "bookworm", root), stdout=subprocess.PIPE, text=True)
        if ran.returncode != 0:
            print("".join(ran.stdout.splitlines(True)[-3:]), end="")
            return False
        open(f"{root}/is-made", "w").close()
    return True


def main(root: str = HERE) -> int:
    if not shutil.which("debootstrap") or os.geteuid() != 0 or not has_root(root):
        print("debootstrap isn't installed or fails, or this isn't root: no Debian was tried")
        print("0 passed, 0 failed")
        return 0
    subprocess.run(["make", "-s", "-o", "build/fzcheck", "-C", ROOT, "dist"], check=True)
    package = max(glob.glob(f"{ROOT}/build/fzcheck_*_amd64.deb"), key=os.path.getmtime)
    shutil.copy(package, f"{root}/tmp/fzcheck.deb")
    words = ("unshare", "--mount", "--pid", "--fork", "sh", "-c", ENTER, root, SCRIPT)
    told = subprocess.run(words, stdin=subprocess.DEVNULL, stdout=subprocess.PIPE, text=True,
                          stderr=subprocess.STDOUT, timeout=600).stdout
    parts = dict(re.findall(r"^= (\w+)\n(.*?)(?=^= |\Z)", told, re.M | re.S))
    if not os.path.exists(f"{ROOT}/python/fzcheck-mzn"):
        del PARTS["mzn"]
    failed = [name for name, wanted in WHOLE.items() if parts.get(name) != wanted]
    failed += [name for name, wanted in PARTS.items() if wanted not in parts.get(name, "")]
    for name in failed:
        print(f"failed: {name}: {parts.get(name, told)}")
    print(f"{len(WHOLE) + len(PARTS) - len(failed)} passed, {len(failed)} failed")
    return bool(failed)


sys.exit(main(*sys.argv[1:]))
