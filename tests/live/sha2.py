"""A server that speaks as MySQL's pages say, for what MariaDB lacks: `caching_sha2_password`, and a dump by GTID set.

It knows one user. Its key and what is encrypted with it are made by the program openssl."""
import hashlib
import shutil
import socket
import subprocess
import tempfile
import threading
from pathlib import Path

NONCE = bytes(range(1, 21))
# CLIENT_PROTOCOL_41, SECURE_CONNECTION, PLUGIN_AUTH, PLUGIN_AUTH_LENENC_CLIENT_DATA, CONNECT_WITH_DB, DEPRECATE_EOF, LONG_PASSWORD
FLAGS = 1 | 1 << 3 | 1 << 9 | 1 << 15 | 1 << 19 | 1 << 21 | 1 << 24
OK = bytes.fromhex("00000002000000")


def missing():
    return not shutil.which("openssl")


def openssl(*words, given=b""):
    return subprocess.run(["openssl", *words], input=given, capture_output=True, check=True).stdout


def mixed(first, second):
    """The bytes of the first, with those of the second over and over."""
    return bytes(a ^ second[k % len(second)] for k, a in enumerate(first))


def encrypted(password, key, scramble):
    """What a client answers to the public key: the password with a zero, mixed with the scramble, by OAEP."""
    with tempfile.NamedTemporaryFile() as file:
        Path(file.name).write_bytes(key)
        return openssl("pkeyutl", "-encrypt", "-pubin", "-inkey", file.name, "-pkeyopt", "rsa_padding_mode:oaep", given=mixed(password + b"\0", scramble))


class Server:
    """One session in a thread of its own. `commands` are those that came, and `is_in` whether the password was the right one."""

    def __init__(self, password, is_known):
        self.password, self.is_known, self.commands, self.is_in = password, is_known, [], False
        self.listener = socket.create_server(("127.0.0.1", 0))
        self.port = self.listener.getsockname()[1]
        self.thread = threading.Thread(target=self.session, daemon=True)
        self.thread.start()

    def send(self, payload):
        self.socket.sendall(len(payload).to_bytes(3, "little") + bytes([self.number]) + payload)
        self.number = (self.number + 1) & 0xFF

    def receive(self):
        head = self.file.read(4)
        if len(head) < 4:
            raise EOFError
        self.number = (head[3] + 1) & 0xFF
        return self.file.read(int.from_bytes(head[:3], "little"))

    def session(self):
        self.socket = self.listener.accept()[0]
        self.file, self.number = self.socket.makefile("rb"), 0
        with self.socket, self.listener, self.file:
            self.send(b"\x0a8.0.36\0" + (7).to_bytes(4, "little") + NONCE[:8] + b"\0" + FLAGS.to_bytes(4, "little")[:2] + b"\x21\x02\0"
                      + FLAGS.to_bytes(4, "little")[2:] + b"\x15" + bytes(10) + NONCE[8:] + b"\0caching_sha2_password\0")
            try:
                self.login(self.receive())
                while True:
                    self.answer(self.receive())
            except EOFError:
                pass

    def login(self, response):
        _, rest = response[32:].split(b"\0", 1)
        sent = rest[1:1 + rest[0]]
        twice = hashlib.sha256(hashlib.sha256(self.password).digest()).digest()
        once = mixed(sent, hashlib.sha256(twice + NONCE).digest())
        if hashlib.sha256(once).digest() != twice:
            return self.send(b"\xff\x15\x04#28000Access denied")
        if self.is_known:
            self.send(b"\x01\x03")
            self.is_in = True
        else:
            self.send(b"\x01\x04")
            self.is_in = self.receive() == b"\x02" and self.decrypted() == self.password + b"\0"
        self.send(OK if self.is_in else b"\xff\x15\x04#28000Access denied")

    def decrypted(self):
        """Sends a public key, and reads the password that comes."""
        with tempfile.TemporaryDirectory() as folder:
            key = f"{folder}/key"
            openssl("genrsa", "-out", key, "2048")
            self.send(b"\x01" + openssl("rsa", "-in", key, "-pubout"))
            return mixed(openssl("pkeyutl", "-decrypt", "-inkey", key, "-pkeyopt", "rsa_padding_mode:oaep", given=self.receive()), NONCE)

    def answer(self, command):
        self.commands.append(command)
        self.number = 1
        if command[0] == 0x1E:
            self.send(b"\0event")
            self.send(b"\xfe\0\0\x02\0")
        else:
            self.send(OK)
