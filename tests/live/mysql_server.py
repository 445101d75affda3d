"""A MySQL server of the machine's own, 8.4 or 9, with data of its own, that is stopped by its process id.

It is the `mysqld` on the path, or the one in a folder that packages were unpacked into: MYSQL_FOLDER names the folder, and the server runs with
the folder's own loader and libraries."""
import os
import re
import shutil
import subprocess
import tempfile
import time
from contextlib import contextmanager
from pathlib import Path

from server import free_port

USERS = """
create database live; create database other;
create user sha@'%' identified with caching_sha2_password by 'secret';
grant all on *.* to sha@'%';
install component 'file://component_query_attributes';
"""


def command():
    """The words that run the server, and the options that its folder wants; or None."""
    folder = os.environ.get("MYSQL_FOLDER")
    if not folder:
        found = shutil.which("mysqld") or shutil.which("mysqld", path="/usr/sbin:/usr/local/sbin")
        return [found] if found else None
    usr = Path(folder).resolve() / "usr"
    libraries = usr / "lib/x86_64-linux-gnu"
    words = [libraries / "ld-linux-x86-64.so.2", "--library-path", f"{libraries}:{usr / 'lib'}", usr / "sbin/mysqld"]
    return [str(it) for it in words] if words[0].exists() and words[3].exists() else None


def options():
    folder = os.environ.get("MYSQL_FOLDER")
    if not folder:
        return []
    usr = Path(folder).resolve() / "usr"
    return [f"--basedir={usr}", f"--lc-messages-dir={usr}/share/mysql", f"--character-sets-dir={usr}/share/mysql/charsets", f"--plugin-dir={usr}/lib/mysql/plugin"]


def missing():
    """Why there is no server, or no text."""
    words = command()
    if not words:
        return "mysqld 8.4 or 9 is not installed"
    said = subprocess.run([*words, "--version"], capture_output=True, text=True).stdout
    version = re.search(r"Ver (\d+)\.(\d+)", said)
    if "MariaDB" in said or not version or tuple(map(int, version.groups())) < (8, 4):
        return f"mysqld is of another version: {said.strip()}"
    return ""


@contextmanager
def running():
    """The port of a server on the loopback address, while it runs."""
    with tempfile.TemporaryDirectory() as folder:
        port, path, words = free_port(), Path(folder), command()
        common = [*words, "--no-defaults", *options(), f"--datadir={path}/data"] + (["--user=root"] if os.geteuid() == 0 else [])
        (path / "users.sql").write_text("".join(f"{it.strip()};\n" for it in USERS.split(";") if it.strip()))
        with open(path / "log", "w") as log:
            subprocess.run([*common, "--initialize-insecure"], check=True, stdout=log, stderr=log)
            server = subprocess.Popen(
                [*common, f"--socket={path}/socket", f"--port={port}", "--bind-address=127.0.0.1", "--mysqlx=OFF", "--server-id=1", "--log-bin=bin",
                 "--gtid-mode=ON", "--enforce-gtid-consistency=ON", "--innodb-buffer-pool-size=64M", "--innodb-flush-log-at-trx-commit=0", "--sync-binlog=0",
                 "--default-time-zone=+00:00", "--secure-file-priv=", f"--init-file={path}/users.sql"], stdout=log, stderr=log)
        try:
            for _ in range(240):
                if server.poll() is not None:
                    raise RuntimeError(f"the server ended with {server.returncode}: {(path / 'log').read_text()[-600:]}")
                if "ready for connections" in (path / "log").read_text():
                    break
                time.sleep(0.25)
            yield port
        finally:
            server.terminate()
            server.wait()
