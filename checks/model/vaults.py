"""Writes and reads Cryptomator vaults of format 8 and the combination SIV_GCM (https://docs.cryptomator.org/security/vault/)."""

import base64
import hashlib
import hmac
import json
import os
import struct
import unicodedata
import uuid

from cryptography.hazmat.primitives.ciphers import algorithms
from cryptography.hazmat.primitives.ciphers.aead import AESGCM, AESSIV
from cryptography.hazmat.primitives.cmac import CMAC
from cryptography.hazmat.primitives.keywrap import aes_key_unwrap, aes_key_wrap

ZEROS = bytes(32)
KEYS = b"0" * 128  # the line of the secret of keys of zeros
CHUNK = 32768  # clear bytes of a chunk
NONCE, HEADER = 12, 68  # bytes
SEALED_CHUNK = NONCE + CHUNK + 16
THRESHOLD = 220  # characters of a sealed name
VERSION = 999  # of a masterkey file
KEY_FILE, VAULT_FILE = "masterkey.cryptomator", "vault.cryptomator"
KEY_IDENTIFIER = "masterkeyfile:" + KEY_FILE
IDENTIFIER_BACKUP = "dirid.c9r"


def base64url(data):
    """With padding."""
    return base64.urlsafe_b64encode(data).decode()


def bare_base64url(data):
    """Without padding, as in a token."""
    return base64url(data).rstrip("=")


def from_bare_base64url(text):
    return base64.urlsafe_b64decode(text + "=" * (-len(text) % 4))


def sealed_nothing(mac_key):
    """SIV of no bytes, which the package refuses to seal: S2V of one empty string alone (RFC 5297, section 2.4)."""

    def cmac(data):
        made = CMAC(algorithms.AES(mac_key))
        made.update(data)
        return made.finalize()

    zeros = int.from_bytes(cmac(bytes(16)), "big")
    doubled = (zeros << 1 & (1 << 128) - 1) ^ (0x87 if zeros >> 127 else 0)
    return cmac((doubled ^ 1 << 127).to_bytes(16, "big"))


def folder_parts(sealed):
    """The parts, below the vault's folder, of the one that has the entries of a directory with this sealed identifier."""
    text = base64.b32encode(hashlib.sha1(sealed).digest()).decode()
    return "d", text[:2], text[2:]


def root_folder_parts(mac_key):
    return folder_parts(sealed_nothing(mac_key))


def version_mac(mac_key, version=VERSION):
    return hmac.digest(mac_key, struct.pack(">I", version), hashlib.sha256)


def password_key(password, salt, cost, block_size):
    """The key of 32 bytes that wraps a vault's keys."""
    text = unicodedata.normalize("NFC", password).encode()
    return hashlib.scrypt(text, salt=salt, n=cost, r=block_size, p=1, maxmem=2**31 - 1, dklen=32)


def chunks_of(content):
    """A file's chunks; content that isn't bytes comes in chunks."""
    return (content[at : at + CHUNK] for at in range(0, len(content), CHUNK)) if isinstance(content, bytes) else content


def write(path, data):
    with open(path, "wb") as file:
        file.write(data)


def read(path):
    with open(path, "rb") as file:
        return file.read()


class Vault:
    """A vault in a folder, by its keys. A directory is named by its identifier (bytes; the root's is empty), a node by its directory and its name."""

    def __init__(self, top, encryption_key=ZEROS, mac_key=ZEROS, threshold=THRESHOLD):
        self.top, self.encryption_key, self.mac_key, self.threshold = top, encryption_key, mac_key, threshold
        self.siv, self.gcm = AESSIV(mac_key + encryption_key), AESGCM(encryption_key)

    def folder(self, identifier):
        """The host's folder of a directory's entries."""
        parts = folder_parts(self.siv.encrypt(identifier, None)) if identifier else root_folder_parts(self.mac_key)
        return os.path.join(self.top, *parts)

    def sealed_name(self, parent, name):
        return base64url(self.siv.encrypt(unicodedata.normalize("NFC", name).encode(), [parent])) + ".c9r"

    def place(self, parent, name):
        """The host's path of a node's entry, which ends in `.c9s` if its sealed name is too long."""
        sealed = self.sealed_name(parent, name)
        return os.path.join(self.folder(parent), sealed if len(sealed) <= self.threshold else short_name(sealed))

    # ---- writing

    def make_root(self):
        os.makedirs(self.folder(b""), exist_ok=True)

    def put_file(self, parent, name, content=b""):
        """Content is bytes, or the file's chunks (of 32,768 bytes but the last)."""
        place = self.place(parent, name)
        if place.endswith(".c9s"):
            place = os.path.join(self.made_folder(parent, name), "contents.c9r")
        with open(place, "wb") as file:
            file.writelines(self.sealed(content))
        return place

    def put_directory(self, parent, name, has_backup=True):
        """Its identifier; the folder of its entries has a backup of it."""
        identifier = str(uuid.uuid4()).encode()
        write(os.path.join(self.made_folder(parent, name), "dir.c9r"), identifier)
        os.makedirs(self.folder(identifier), exist_ok=True)
        if has_backup:
            write(os.path.join(self.folder(identifier), IDENTIFIER_BACKUP), b"".join(self.sealed(identifier)))
        return identifier

    def put_link(self, parent, name, target):
        place = os.path.join(self.made_folder(parent, name), "symlink.c9r")
        write(place, b"".join(self.sealed(target)))
        return place

    def made_folder(self, parent, name):
        """A new folder of a node, with its name if that is too long for the entry."""
        place = self.place(parent, name)
        os.mkdir(place)
        if place.endswith(".c9s"):
            write(os.path.join(place, "name.c9s"), self.sealed_name(parent, name).encode())
        return place

    def sealed(self, content):
        """The pieces of a file: its header and its sealed chunks."""
        nonce, key = os.urandom(NONCE), os.urandom(32)
        gcm = AESGCM(key)
        yield nonce + self.gcm.encrypt(nonce, b"\xff" * 8 + key, None)
        for number, chunk in enumerate(chunks_of(content)):
            own = os.urandom(NONCE)
            yield own + gcm.encrypt(own, chunk, struct.pack(">Q", number) + nonce)

    def write_key_files(self, password, cost=32768, block_size=8):
        salt = os.urandom(8)
        wrapping = password_key(password, salt, cost, block_size)
        members = {"version": VERSION, "scryptSalt": salt, "scryptCostParam": cost, "scryptBlockSize": block_size}
        members |= {"primaryMasterKey": aes_key_wrap(wrapping, self.encryption_key), "hmacMasterKey": aes_key_wrap(wrapping, self.mac_key)}
        members["versionMac"] = version_mac(self.mac_key)
        members = {name: base64.b64encode(value).decode() if isinstance(value, bytes) else value for name, value in members.items()}
        write(os.path.join(self.top, KEY_FILE), json.dumps(members, indent=2).encode())
        write(os.path.join(self.top, VAULT_FILE), self.token().encode())

    def token(self):
        """The vault's configuration, signed (RFC 7515)."""
        header = {"kid": KEY_IDENTIFIER, "typ": "JWT", "alg": "HS256"}
        claims = {"jti": str(uuid.uuid4()), "format": 8, "cipherCombo": "SIV_GCM", "shorteningThreshold": self.threshold}
        signed = ".".join(bare_base64url(json.dumps(part).encode()) for part in (header, claims))
        return signed + "." + bare_base64url(hmac.digest(self.encryption_key + self.mac_key, signed.encode(), hashlib.sha256))

    # ---- reading

    def read_file(self, place):
        data = read(place)
        nonce = data[:NONCE]
        gcm = AESGCM(self.gcm.decrypt(nonce, data[NONCE:HEADER], None)[8:])
        sealed = [data[at : at + SEALED_CHUNK] for at in range(HEADER, len(data), SEALED_CHUNK)]
        return b"".join(gcm.decrypt(one[:NONCE], one[NONCE:], struct.pack(">Q", number) + nonce) for number, one in enumerate(sealed))

    def name_of(self, parent, entry):
        """The clear name of a directory's entry, all of whose spellings must be the ones that writing gives."""
        sealed = entry
        if entry.endswith(".c9s"):
            sealed = read(os.path.join(self.folder(parent), entry, "name.c9s")).decode()
            assert short_name(sealed) == entry, entry
        assert sealed.endswith(".c9r"), entry
        name = self.siv.decrypt(base64.urlsafe_b64decode(sealed[:-4]), [parent]).decode()
        assert self.sealed_name(parent, name) == sealed, entry
        return name

    def node(self, place):
        """A directory's identifier (None of another node), and the bytes of a file or ("link", target)."""
        if os.path.isfile(place):
            return None, self.read_file(place)
        inside = {name: os.path.join(place, name) for name in ("dir.c9r", "symlink.c9r", "contents.c9r")}
        if os.path.exists(inside["dir.c9r"]):
            return read(inside["dir.c9r"]), None
        if os.path.exists(inside["symlink.c9r"]):
            return None, ("link", self.read_file(inside["symlink.c9r"]))
        return None, self.read_file(inside["contents.c9r"])

    def tree(self, foreign=(), identifier=b"", path=""):
        """The bytes of each file, None of a directory and ("link", target), by paths; an exception where anything is damaged or isn't the vault's
        own, but for entries of these foreign names."""
        found, folder = {}, self.folder(identifier)
        for entry in sorted(set(os.listdir(folder)) - {IDENTIFIER_BACKUP, *foreign}):
            at = f"{path}/{self.name_of(identifier, entry)}"
            inner, found[at] = self.node(os.path.join(folder, entry))
            if inner is not None:
                found |= self.tree(foreign, inner, at)
        return found


def short_name(sealed):
    """The entry of a node whose sealed name is too long."""
    return base64url(hashlib.sha1(sealed.encode()).digest()) + ".c9s"


def opened_vault(top, password):
    """The vault in a folder with key files, which must be as `write_key_files` makes them but for the costs."""
    members = json.loads(read(os.path.join(top, KEY_FILE)))
    value = {name: base64.b64decode(members[name]) for name in ("scryptSalt", "primaryMasterKey", "hmacMasterKey", "versionMac")}
    wrapping = password_key(password, value["scryptSalt"], members["scryptCostParam"], members["scryptBlockSize"])
    encryption_key, mac_key = (aes_key_unwrap(wrapping, value[name]) for name in ("primaryMasterKey", "hmacMasterKey"))
    assert value["versionMac"] == version_mac(mac_key, members["version"])
    signed, _, signature = read(os.path.join(top, VAULT_FILE)).decode().strip().rpartition(".")
    assert from_bare_base64url(signature) == hmac.digest(encryption_key + mac_key, signed.encode(), hashlib.sha256)
    header, claims = (json.loads(from_bare_base64url(part)) for part in signed.split("."))
    assert (header["kid"], claims["format"], claims["cipherCombo"]) == (KEY_IDENTIFIER, 8, "SIV_GCM")
    return Vault(top, encryption_key, mac_key, claims["shorteningThreshold"])
