"""A MariaDB server of the machine's own, with data of its own, that is stopped by its process id."""
import getpass
import shutil
import socket
import subprocess
import tempfile
import time
from contextlib import contextmanager
from pathlib import Path

TOOLS = ("mariadbd", "mariadb-install-db", "mariadb")
USERS = """
create database live; create database other;
create user native@'%' identified by 'secret';
install soname 'auth_ed25519';
create user ed@'%' identified via ed25519 using password('secret');
grant all on *.* to native@'%'; grant all on *.* to ed@'%';
"""


def found(tool):
    return shutil.which(tool) or shutil.which(tool, path="/usr/sbin:/usr/local/sbin")


def missing():
    """The tools that are not installed."""
    return [it for it in TOOLS if not found(it)]


def free_port():
    with socket.socket() as it:
        it.bind(("127.0.0.1", 0))
        return it.getsockname()[1]


@contextmanager
def running():
    """The port of a server on the loopback address, while it runs."""
    with tempfile.TemporaryDirectory() as folder:
        port, path = free_port(), Path(folder)
        common = ["--no-defaults", f"--datadir={path}/data"] + (["--user=root"] if getpass.getuser() == "root" else [])
        subprocess.run([found("mariadb-install-db"), *common, "--auth-root-authentication-method=normal", "--skip-test-db"], check=True,
                       stdout=subprocess.DEVNULL, stderr=subprocess.DEVNULL)
        with open(path / "log", "w") as log:
            server = subprocess.Popen(
                [found("mariadbd"), *common, f"--socket={path}/socket", f"--port={port}", "--bind-address=127.0.0.1", "--skip-ssl", "--server-id=1",
                 "--log-bin=bin", "--local-infile=1", "--skip-name-resolve", "--innodb-buffer-pool-size=64M", "--innodb-flush-log-at-trx-commit=0",
                 "--max-allowed-packet=64M", "--character-set-server=utf8mb4", "--default-time-zone=+00:00"], stdout=log, stderr=log)
        try:
            client = [found("mariadb"), "--no-defaults", "-uroot", f"-S{path}/socket"]
            for _ in range(240):
                if server.poll() is not None:
                    raise RuntimeError(f"the server ended with {server.returncode}: {(path / 'log').read_text()[-600:]}")
                if subprocess.run([*client, "-e", "select 1"], capture_output=True).returncode == 0:
                    break
                time.sleep(0.25)
            subprocess.run(client, input=USERS, text=True, check=True)
            yield port
        finally:
            server.terminate()
            server.wait()
