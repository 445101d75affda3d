"""What authentication plugins answer: cryptography, which the packets layer leaves to its caller."""
import hashlib
from functools import lru_cache


def native(password, nonce):
    """mysql_native_password"""
    first = hashlib.sha1(password).digest()
    second = hashlib.sha1(nonce + hashlib.sha1(first).digest()).digest()
    return bytes(a ^ b for a, b in zip(first, second))


def sha2(password, nonce):
    """caching_sha2_password, the first answer; nothing where there is no password"""
    if not password:
        return b""
    first = hashlib.sha256(password).digest()
    second = hashlib.sha256(hashlib.sha256(first).digest() + nonce).digest()
    return bytes(a ^ b for a, b in zip(first, second))


# Ed25519 of RFC 8032, in extended coordinates
Q = 2**255 - 19
L = 2**252 + 27742317777372353535851937790883648493
D = -121665 * pow(121666, Q - 2, Q) % Q


def base_point():
    y = 4 * pow(5, Q - 2, Q) % Q
    square = (y * y - 1) * pow(D * y * y + 1, Q - 2, Q)
    x = pow(square, (Q + 3) // 8, Q)
    if (x * x - square) % Q:
        x = x * pow(2, (Q - 1) // 4, Q) % Q
    return (x if x % 2 == 0 else Q - x), y


def added(p, q):
    a, b = (p[1] - p[0]) * (q[1] - q[0]) % Q, (p[1] + p[0]) * (q[1] + q[0]) % Q
    c, d = 2 * p[3] * q[3] * D % Q, 2 * p[2] * q[2] % Q
    e, f, g, h = b - a, d - c, d + c, b + a
    return e * f % Q, g * h % Q, f * g % Q, e * h % Q


def multiplied(n):
    """This many times the base point, as 32 bytes."""
    x, y = base_point()
    power, total = (x, y, 1, x * y % Q), (0, 1, 1, 0)
    while n:
        if n & 1:
            total = added(total, power)
        power, n = added(power, power), n >> 1
    inverse = pow(total[2], Q - 2, Q)
    return ((total[1] * inverse % Q) | (total[0] * inverse % Q & 1) << 255).to_bytes(32, "little")


@lru_cache
def keys(password):
    """The secret key, which is the hash of the password, its scalar, and the public key."""
    secret = hashlib.sha512(password).digest()
    scalar = int.from_bytes(secret[:32], "little") & ((1 << 254) - 8) | 1 << 254
    return secret, scalar, multiplied(scalar)


def ed25519(password, nonce):
    """client_ed25519: a signature of the scramble"""
    secret, scalar, public = keys(password)
    r = int.from_bytes(hashlib.sha512(secret[32:] + nonce).digest(), "little") % L
    point = multiplied(r)
    k = int.from_bytes(hashlib.sha512(point + public + nonce).digest(), "little") % L
    return point + ((r + k * scalar) % L).to_bytes(32, "little")
