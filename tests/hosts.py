"""Two hosts of a test's own: network namespaces of this machine, each with a server of ssh."""
import os
import pathlib
import shutil
import subprocess
import time
from typing import Dict, List, Tuple

NAMES = ("fzcheck-one", "fzcheck-two")
SERVER = shutil.which("sshd", path=f"{os.environ['PATH']}:/usr/sbin") or "sshd"
CONFIGURATION = """Port 22
HostKey {folder}/host_key
AuthorizedKeysFile {folder}/key.pub
PidFile {folder}/{name}.pid
StrictModes no
PermitRootLogin yes
UsePAM no
ForceCommand echo {name} >> {folder}/used; export {variables}; eval "$SSH_ORIGINAL_COMMAND"
"""


def lacking() -> str:
    """What the machine lacks for them, if anything."""
    if os.geteuid() != 0:
        return "only root may make network namespaces"
    wanted = ("ip", "ssh", "ssh-keygen", SERVER)
    missing = [name for name in wanted if not shutil.which(name)]
    if missing:
        return f"{missing[0]} isn't installed"
    try:
        run("ip", "netns", "add", NAMES[0])
        run(*pair_of_ends(0, NAMES[0]))
        return ""
    except subprocess.CalledProcessError:
        return "no network namespace can be made"
    finally:
        drop(NAMES[0])


def pair_of_ends(number: int, name: str) -> Tuple[str, ...]:
    """The words that make a cable from this machine into a namespace."""
    return ("ip", "link", "add", f"fzc{number}out", "type", "veth",
            "peer", "name", f"fzc{number}in", "netns", name)


def drop(name: str) -> None:
    """Removes a namespace, with its end of the cable, and so the other end."""
    subprocess.run(("ip", "netns", "delete", name), stderr=subprocess.DEVNULL)


def run(*words: str) -> None:
    subprocess.run(words, check=True, stdout=subprocess.DEVNULL)


class Hosts:
    """Within it the hosts are there, where commands have some variables of the environment."""

    def __init__(self, folder: pathlib.Path, variables: Dict[str, str]) -> None:
        self.folder = folder / "hosts_of_the_test"
        self.variables = " ".join(f"{name}='{value}'" for name, value in variables.items())
        self.addresses = [f"root@10.213.{number}.2" for number in range(len(NAMES))]
        self.servers: List["subprocess.Popen[bytes]"] = []
        self.ssh = (f"ssh -F none -i {self.folder}/key -o StrictHostKeyChecking=no "
                    "-o UserKnownHostsFile=/dev/null -o LogLevel=ERROR")

    def __enter__(self) -> "Hosts":
        self.folder.mkdir()
        os.makedirs("/run/sshd", exist_ok=True)
        for name in ("key", "host_key"):
            run("ssh-keygen", "-q", "-t", "ed25519", "-N", "", "-f", f"{self.folder}/{name}")
        try:
            for number, name in enumerate(NAMES):
                self.start(number, name)
        except BaseException:
            self.__exit__()
            raise
        time.sleep(1)  # until the servers listen
        return self

    def start(self, number: int, name: str) -> None:
        configuration = self.folder / f"{name}.conf"
        configuration.write_text(CONFIGURATION.format(folder=self.folder, name=name,
                                                      variables=self.variables))
        outside, inside = f"fzc{number}out", f"fzc{number}in"
        within = ("ip", "netns", "exec", name)
        run("ip", "netns", "add", name)
        run(*pair_of_ends(number, name))
        run("ip", "address", "add", f"10.213.{number}.1/24", "dev", outside)
        run("ip", "link", "set", outside, "up")
        run(*within, "ip", "address", "add", f"10.213.{number}.2/24", "dev", inside)
        run(*within, "ip", "link", "set", inside, "up")
        words = (*within, SERVER, "-D", "-e", "-f", str(configuration))
        self.servers.append(subprocess.Popen(words, stderr=subprocess.DEVNULL))

    def both_were_used(self) -> bool:
        return set((self.folder / "used").read_text().split()) == set(NAMES)

    def __exit__(self, *_: object) -> None:
        for server in self.servers:
            server.terminate()
            server.wait()
        for name in NAMES:
            drop(name)
