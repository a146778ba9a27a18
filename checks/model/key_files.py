"""What a secret and a vault's key files come to: a status, and the line of the report of what is refused.

The tests come in an order: the secret's line, the masterkey file (its length, JSON, its members, the cost, the two check values), the configuration
(its length, three pieces, algorithm, key identifier, signature, format, combination, threshold), the root's folder.
"""

import base64
import hashlib
import hmac
import os
import re
import unicodedata

from cryptography.hazmat.primitives.keywrap import InvalidUnwrap, aes_key_unwrap

from .json_text import Number, json_object
from .vaults import KEY_FILE, KEY_IDENTIFIER, VAULT_FILE, password_key, read, root_folder_parts

MOST_BYTES = 65536  # of a key file
MOST_PASSWORD, MOST_SALT, WRAPPED_KEY = 1024, 1024, 40  # bytes
MOST_MEMORY = 2**30  # bytes that scrypt may take
MOST_THRESHOLD = 250
HASHES = {"HS256": hashlib.sha256, "HS384": hashlib.sha384, "HS512": hashlib.sha512}  # RFC 7518, section 3.2
WRONG_PASSWORD, BAD_SECRET = (2, "wrong password"), (2, "bad secret")


class KeysRefused(Exception):
    """A status, and the line of its report."""

    def __init__(self, status, line):
        super().__init__(status, line)


def refused(cause):
    return KeysRefused(3, "vault refused: " + cause)


def strict_base64(text, is_url=False):
    """The bytes of base64 with padding, or of base64url without (RFC 4648, sections 4 and 5), in its one spelling, or None."""
    if not isinstance(text, str):
        return None
    alphabet, other = (r"[A-Za-z0-9_-]*", b"-_") if is_url else (r"[A-Za-z0-9+/]*={0,2}", b"+/")
    if not re.fullmatch(alphabet, text):
        return None
    try:
        data = base64.b64decode(text + "=" * (-len(text) % 4) if is_url else text, altchars=other, validate=True)
    except ValueError:
        return None
    again = base64.b64encode(data, altchars=other).decode()
    return data if (again.rstrip("=") if is_url else again) == text else None


def line_of(secret):
    return secret.split(b"\n", 1)[0]


def password_of(secret):
    """The password in NFC."""
    line = line_of(secret)
    try:
        if 1 <= len(line) <= MOST_PASSWORD:
            return unicodedata.normalize("NFC", line.decode("utf-8"))
    except UnicodeDecodeError:
        pass
    raise KeysRefused(*BAD_SECRET)


def raw_keys_of(secret):
    line = line_of(secret)
    if not re.fullmatch(rb"[0-9a-fA-F]{128}", line):
        raise KeysRefused(*BAD_SECRET)
    keys = bytes.fromhex(line.decode())
    return keys[:32], keys[32:]


def integer_in(members, name):
    """The integer of a member, or None."""
    return members[name].integer() if isinstance(members.get(name), Number) else None


def number_in(members, name):
    """A masterkey file's number, below 2^64."""
    number = integer_in(members, name)
    if number is None or not 0 <= number < 2**64:
        raise refused("masterkey file: field " + name)
    return number


def bytes_in(members, name, is_good):
    data = strict_base64(members.get(name))
    if data is None or not is_good(len(data)):
        raise refused("masterkey file: field " + name)
    return data


def is_bad_cost(cost, block_size):
    """Whether these aren't scrypt's N and r (RFC 7914, section 2), or ask for too much memory."""
    if cost < 2 or cost & (cost - 1) or block_size == 0:
        return True
    return 128 * cost * block_size > MOST_MEMORY or 128 * block_size > MOST_MEMORY


def unlocked_keys(data, password):
    """The encryption key and the MAC key of a masterkey file (None where there is no file)."""
    if data is None:
        raise refused("no masterkey file")
    if len(data) > MOST_BYTES:
        raise refused(f"masterkey file: too long {len(data)}")
    members = json_object(data)
    if members is None:
        raise refused("masterkey file: not JSON")
    salt = bytes_in(members, "scryptSalt", lambda length: length <= MOST_SALT)
    cost, block_size = (number_in(members, name) for name in ("scryptCostParam", "scryptBlockSize"))
    wrapped = [bytes_in(members, name, lambda length: length == WRAPPED_KEY) for name in ("primaryMasterKey", "hmacMasterKey")]
    if is_bad_cost(cost, block_size):
        raise refused("masterkey file: cost")
    wrapping = password_key(password, salt, cost, block_size)
    try:
        return [aes_key_unwrap(wrapping, key) for key in wrapped]
    except InvalidUnwrap:
        raise KeysRefused(*WRONG_PASSWORD) from None


def pieces_of(token):
    """The bytes of the header, the claims and the signature of a token."""
    try:
        pieces = [strict_base64(piece, True) for piece in token.decode("ascii").split(".")]
    except UnicodeDecodeError:
        pieces = []
    if len(pieces) != 3 or None in pieces:
        raise refused("vault file: not a token")
    return pieces


def tested_configuration(data, encryption_key, mac_key):
    """Tests the configuration (None where there is no file)."""
    if data is None:
        raise refused("no vault file")
    if len(data) > MOST_BYTES:
        raise refused(f"vault file: too long {len(data)}")
    token = data.rstrip(b" \t\n\r\x0c")
    head, body, signature = pieces_of(token)
    header, claims = json_object(head), json_object(body)
    if header is None or claims is None:
        raise refused("vault file: not a token")
    algorithm = header.get("alg")
    if not isinstance(algorithm, str) or algorithm not in HASHES:
        raise refused("vault file: algorithm")
    if header.get("kid") != KEY_IDENTIFIER:
        raise refused("vault file: kid")
    if hmac.digest(encryption_key + mac_key, token.rsplit(b".", 1)[0], HASHES[algorithm]) != signature:
        raise refused("vault file: signature")
    test_claims(claims)


def test_claims(claims):
    version, threshold = integer_in(claims, "format"), integer_in(claims, "shorteningThreshold")
    if version is None or not 0 <= version < 2**64:
        raise refused("vault file: claim format")
    if version != 8:
        raise refused(f"vault file: format {version}")
    if not isinstance(claims.get("cipherCombo"), str):
        raise refused("vault file: claim cipherCombo")
    if claims["cipherCombo"] != "SIV_GCM":
        raise refused("vault file: combo")
    if threshold is None or not 1 <= threshold <= MOST_THRESHOLD:
        raise refused("vault file: claim shorteningThreshold")


def read_file(folder, name):
    """The bytes of a file in a folder, or None where there is no file."""
    path = os.path.join(folder, name)
    return read(path) if os.path.isfile(path) else None


def keys_of(folder, secret, is_raw):
    if is_raw:
        return raw_keys_of(secret)
    keys = unlocked_keys(read_file(folder, KEY_FILE), password_of(secret))
    tested_configuration(read_file(folder, VAULT_FILE), *keys)
    return keys


def unlocking(folder, secret, is_raw=False):
    """The status, and the line of a refusal or None."""
    try:
        _, mac_key = keys_of(folder, secret, is_raw)
        if not os.path.isdir(os.path.join(folder, *root_folder_parts(mac_key))):
            raise refused("no root")
    except KeysRefused as error:
        return error.args
    return 0, None
