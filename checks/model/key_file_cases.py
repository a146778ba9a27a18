"""Random key files with their secrets, good and broken, by a number. Cases only write bytes: what comes of them is said by `key_files`."""

import base64
import hmac
import json
import os
import random
import uuid

from cryptography.hazmat.primitives.keywrap import aes_key_wrap

from .key_files import HASHES, MOST_BYTES
from .vaults import KEY_FILE, KEY_IDENTIFIER, VAULT_FILE, bare_base64url, password_key, root_folder_parts, version_mac, write

FOLDER = ...  # in place of a file; None is in place of one that is absent
PASSWORDS = ["correct horse", "a", "pässwörd", "e\u0301", "\u212b", "\u1112\u1161\u11ab", "q\u0323\u0307", "q\u0307\u0323", "x" * 1024, "é" * 512]
PASSWORDS += ["e\u0301" * 341, " lead", "tail ", "tab\t", "cr\r", "nul\0x", "\ufeffbom", "日本語", "😀", "\u0958", "\ufb01", "\u0340", "\u2126", "\u1e9b\u0323"]
COMPOSED = "Å".encode()
BAD_LINES = {
    "empty": b"",
    "empty line": b"\nx",
    "not UTF-8": b"a\xffb\n",
    "surrogate": b"\xed\xa0\x80",
    "cut": b"a\xc3\nb",
    "1025": b"x" * 1025,
    "1025 before NFC": ("e\u0301" * 342).encode()[:1026],
    "another": None,  # the case's own password with a letter more
    "no NFC": COMPOSED + b"\n",
}
SPELLINGS_OF_KEYS = [lambda digits: digits, str.upper, lambda digits: digits[:-1], lambda digits: digits + "0", lambda digits: " " + digits[1:]]
DEEP = "[" * 126 + "]" * 126  # as deep as it may be
MORE_MEMBERS = ['"x":[]', '"x":{"scryptSalt":1,"format":7}', '"":null', '"version":999', '"versionMac":"no"', '"iss":"a\\u00e9b"', '"é":"é"']
MORE_MEMBERS += ['"n":-1.5e-7', '"typ":"JWT"', '"jti":"7"', '"exp":1', '"crit":["exp"]', '"Alg":"none"', '"FORMAT":7', '"deep":' + DEEP, '"a":"\\ud83d\\ude00"']
NOT_OBJECTS = [b"", b" ", b"[]", b"7", b"null", b'"{}"', b"{", b"}", b"{}{}", b"{},", b'{"a":1,}', b"{'a':1}", b'{"a":01}', b'{"a":1.}', b'{"a":.5}']
NOT_OBJECTS += [b'{"a":+1}', b'{"a":0x1}', b'{"a":NaN}', b'{"a":"\x01"}', b'{"a":"\\x"}', b'{"a":tru}', b"{a:1}", b'{"a" 1}', b"\xef\xbb\xbf{}"]
NOT_OBJECTS += [b'{"a":"\xff"}', b'{"a":"\xed\xa0\x80"}', b"{}\x00", b"{}\x0c", b"\x0b{}", b'{"a":1 /**/}', b'{"a":' + b"[" * 127 + b"]" * 127 + b"}"]
NOT_OBJECTS += [b'{"a":"\xc0\x80"}', '{"a":"é"}'.encode("latin-1"), '{"a":1}'.encode("utf-16")]
WRONG_KINDS = ["null", "true", "[]", "{}", '["8"]', '""', '"8"']

# The masterkey file
NUMBERS = ["scryptCostParam", "scryptBlockSize"]
MEMBERS = ["version", "scryptSalt", *NUMBERS, "primaryMasterKey", "hmacMasterKey", "versionMac"]
READ_MEMBERS = MEMBERS[1:-1]
EDGE_MEMBERS = ["1e400", "-1e309", '"\\ud800"', '"\\udc00\\ud800"', DEEP, "1e-400", "123456789012345678901234567890"]
BAD_NUMBERS = ["-2", "-2.0", "1.5", "8.5e0", "1e-1", "18446744073709551616", "1e30", "1e308", "-0", "0", "0.0", "18446744073709551615"]
BAD_NUMBERS += ["2.0000000000000001", "8.00000000000000001", "16.0000000000000000000001", "18446744073709551615.0", "1.8446744073709551616e19", "36893488147419103232"]
BAD_COSTS = [(3, 8), (1, 8), (0, 1), (6, 1), (2, 0), (2**20, 9), (2**23, 2), (2**24, 1), (2**63, 1), (2**63, 2**63), (2, 2**22 + 1), (2, 2**23)]
BAD_COSTS += [(2**13, 2**11), (2**64 - 1, 1), (2**22, 3), (12, 2)]

# The configuration
CLAIMS = ["format", "cipherCombo", "shorteningThreshold", "jti"]
EDGE_CLAIMS = ["1e400", '"\\ud800"', DEEP, "1e-999"]
BAD_ALGORITHMS = ["none", "None", "hs256", "HS256 ", "RS256", "HS1", "HS224", "", "HS2560"]
BAD_KEY_IDENTIFIERS = ['"masterkeyfile:Masterkey.cryptomator"', '"masterkeyfile:masterkey.cryptomator "', '"hub+https://x"', '"masterkey.cryptomator"']
BAD_KEY_IDENTIFIERS += ["1", "null", '""', '"masterkeyfile:masterkey.cryptomator\\u0000"']
FORMATS = ["7", "9", "0", "-8", "8.5", "80", "0.8", "800e-2", "18446744073709551615", "18446744073709551616", "1e30", "-0", "9007199254740993"]
FORMATS += ["9007199254740993.0", "8.0000000000000001", "7.99999999999999999", "1e2", "1.8446744073709551615e19"]
COMBINATIONS = ["SIV_CTRMAC", "siv_gcm", "SIV_GCM ", "", "GCM_SIV", "SIV_GC"]
THRESHOLDS = ["0", "251", "-1", "250.5", "1e3", "2.5e2", "0.1e1", "4294967297", "18446744073709551615", "1e400", "220.00000000000000001"]
THRESHOLDS += ["250.00000000000000001", "0.99999999999999999999", "-0"]
SECOND_IN_HEADER = [("alg", '"none"'), ("kid", '"x"'), ("alg", "1")]
SECOND_CLAIMS = [("format", "7"), ("format", '"8"'), ("cipherCombo", '"X"'), ("shorteningThreshold", "0")]
BAD_SIGNATURES = [lambda tag: tag[:-1], lambda tag: tag + b"\0", lambda tag: b"", lambda tag: tag[:16], lambda tag: tag + tag, lambda tag: tag[:32]]
OTHER_LAST_DIGITS = {"A": "B", "Q": "R", "g": "h", "w": "x"}  # of base64, with further bits set behind the last byte


def base64_of(data):
    return base64.b64encode(data).decode()


def spelled(pick, number):
    """A whole number as JSON may write it."""
    if pick.random() < 0.6:
        return f"{number}"
    forms = [f"{number}.0", f"{number}.000", f"{number}e0", f"{number}E+0", f"{number}0e-1", f"{number}.0e00"]
    if number:
        first, rest = str(number)[0], str(number)[1:]
        forms.append(f"{first}.{rest or '0'}e{len(rest)}")
        forms.append(f"0.{number}e+{len(rest) + 1}")
    return pick.choice(forms)


def quoted(pick, text, plain=0.7):
    """A JSON string, with this chance a plain one, else with some of its characters escaped."""
    if pick.random() < plain:
        return json.dumps(text)
    characters = []
    for character in text:
        way = pick.random()
        if way < 0.1 and ord(character) < 0x10000:
            characters.append(("\\u%04x" if pick.random() < 0.5 else "\\u%04X") % ord(character))
        elif character == "/" and way < 0.6:
            characters.append("\\/")
        else:
            characters.append(json.dumps(character)[1:-1])
    return '"' + "".join(characters) + '"'


def laid_out(pick, members):
    """The text of an object with these members, pairs of a name and the value's spelling, and some more; at times in another order and with space."""
    members = list(members)
    for _ in range(pick.choice((0, 0, 1, 3))):
        members.insert(pick.randrange(len(members) + 1), (None, pick.choice(MORE_MEMBERS)))
    if pick.random() < 0.3:
        pick.shuffle(members)
    is_spaced = pick.random() < 0.4

    def space():
        return pick.choice(("", "", "", " ", "\n", "\r\n", "\t", "  ")) if is_spaced else ""

    def member(name, value):
        return value if name is None else quoted(pick, name, 0.9) + space() + ":" + space() + value

    body = ",".join(space() + member(*one) + space() for one in members)
    return space() + "{" + body + "}" + space()


def with_second(text, name, value, is_first):
    """An object's text with one member more, in front of all others or behind them."""
    inner, member = text[text.index("{") + 1 : text.rindex("}")], f"{json.dumps(name)}:{value}"
    return "{" + (f"{member},{inner}" if is_first else f"{inner},{member}") + "}"


def spoiled_base64(pick, data):
    """A spelling that strict reading refuses, or that has another length."""
    good = base64_of(data)
    bare, swapped = good.rstrip("="), good.replace("+", "-").replace("/", "_")
    ways = [good[:-1] + "!", " " + good, good + "\n", good[:4] + "=" + good[4:], "*" + good[1:], good + "="]
    ways += [bare if bare != good else good + "A", good + "====", swapped if swapped != good else "-" + good[1:]]
    if bare and bare != good:  # bits behind the last byte
        ways.append(bare[:-1] + chr(ord(bare[-1]) + 1 if bare[-1] not in "Zz9/" else ord("B")) + good[len(bare) :])
    return pick.choice(ways)


class Spoiled:
    """A file that gets faults, each by the method that has its name behind `fault_`. In the end `file` is its bytes, None or FOLDER."""

    FAULTS = ()

    def spoil(self, count, notes):
        """Puts so many faults in, and notes their names."""
        for _ in range(count):
            fault = self.pick.choice(self.FAULTS)
            notes.append(fault)
            self.before_fault()
            getattr(self, "fault_" + fault.replace(" ", "_"))()

    def before_fault(self):
        pass


class KeyFile(Spoiled):
    """A masterkey file."""

    FAULTS = ("drop", "kind", "base64", "length", "number", "cost", "bit", "swap", "swap", "double", "whole", "long", "absent", "folder", "edge")

    def __init__(self, pick, password, encryption_key, mac_key, faults, notes):
        self.pick, self.is_absent, self.is_folder, self.instead = pick, False, False, None
        cost, block_size = pick.choice((2, 4, 8, 16)), pick.choice((1, 2, 3, 8))
        salt = pick.randbytes(pick.choice((8, 8, 8, 0, 1, 16, 33, 1024)))
        wrapping = password_key(password, salt, cost, block_size)
        self.data = {"scryptSalt": salt, "primaryMasterKey": aes_key_wrap(wrapping, encryption_key), "hmacMasterKey": aes_key_wrap(wrapping, mac_key)}
        self.values = {"scryptSalt": quoted(pick, base64_of(salt)), "scryptCostParam": spelled(pick, cost), "scryptBlockSize": spelled(pick, block_size)}
        self.values |= {"version": "999", "versionMac": quoted(pick, base64_of(version_mac(mac_key)))}
        self.values |= {name: quoted(pick, base64_of(self.data[name])) for name in ("primaryMasterKey", "hmacMasterKey")}
        self.order, self.second = list(MEMBERS), []
        self.spoil(faults, notes)
        data = self.bytes()
        self.file = None if self.is_absent else FOLDER if self.is_folder else data

    def bytes(self):
        text = laid_out(self.pick, [(name, self.values[name]) for name in self.order if name in self.values])
        for one in self.second:
            text = with_second(text, *one)
        data = text.encode()
        return self.instead(data) if self.instead else data

    def before_fault(self):
        self.name = self.pick.choice(READ_MEMBERS)

    def fault_drop(self):
        self.values.pop(self.name, None)

    def fault_kind(self):
        self.values[self.name] = self.pick.choice(WRONG_KINDS + ["8.5", "1e1"])

    def fault_base64(self):
        name = self.pick.choice(list(self.data))
        self.values[name] = json.dumps(spoiled_base64(self.pick, self.data[name]))

    def fault_length(self):
        name = self.pick.choice(list(self.data))
        if name == "scryptSalt":
            data = self.pick.randbytes(1025)
        else:
            data = self.data[name] + b"x" if self.pick.random() < 0.5 else self.data[name][:-1]
        self.values[name] = json.dumps(base64_of(data))

    def fault_number(self):
        number = self.pick.choice(BAD_NUMBERS)
        self.values[self.pick.choice(NUMBERS)] = number

    def fault_cost(self):
        for name, number in zip(NUMBERS, self.pick.choice(BAD_COSTS)):
            self.values[name] = spelled(self.pick, number) if number < 2**53 else str(number)

    def fault_bit(self):
        name = self.pick.choice(list(self.data))
        data = bytearray(self.data[name])
        if data:
            number = self.pick.randrange(8 * len(data))
            data[number // 8] ^= 1 << number % 8
            self.values[name] = json.dumps(base64_of(data))

    def fault_swap(self):
        for name, other in ("primaryMasterKey", "hmacMasterKey"), ("hmacMasterKey", "primaryMasterKey"):
            self.values[name] = json.dumps(base64_of(self.data[other]))

    def fault_double(self):
        value = self.pick.choice(("null", '"AAAA"', "3", self.values.get(self.name, "7")))
        self.second.append((self.name, value, self.pick.random() < 0.5))

    def fault_whole(self):
        other = self.pick.choice(NOT_OBJECTS)
        self.instead = lambda data: other

    def fault_long(self):
        self.instead = lambda data: data + b" " * (MOST_BYTES + self.pick.choice((0, 0, 1, 2, 5000)) - len(data))

    def fault_absent(self):
        self.is_absent = True

    def fault_folder(self):
        self.is_folder = True

    def fault_edge(self):
        self.values["x"] = self.pick.choice(EDGE_MEMBERS)
        self.order.append("x")


class Token(Spoiled):
    """A configuration."""

    FAULTS = ("no alg", "alg", "alg kind", "no kid", "kid", "drop claim", "claim kind", "format", "combo", "threshold", "key", "sign with", "bit")
    FAULTS += ("signature", "raw", "pieces", "space", "padding", "long", "absent", "folder", "double", "edge", "stray", "alg none")

    def __init__(self, pick, encryption_key, mac_key, faults, notes):
        self.pick, self.encryption_key, self.mac_key = pick, encryption_key, mac_key
        self.key, self.algorithm = encryption_key + mac_key, pick.choice(("HS256", "HS256", "HS384", "HS512"))
        self.parts = {"header": {"kid": quoted(pick, KEY_IDENTIFIER), "typ": '"JWT"', "alg": quoted(pick, self.algorithm)}}
        identifier = json.dumps(str(uuid.UUID(bytes=pick.randbytes(16), version=4)))
        self.parts["claims"] = {"jti": identifier, "format": spelled(pick, 8), "cipherCombo": quoted(pick, "SIV_GCM")}
        self.parts["claims"]["shorteningThreshold"] = spelled(pick, pick.choice((220, 1, 250, 36, 100)))
        self.raw, self.second = {}, []
        self.spoil_signature, self.last = lambda tag: tag, None  # the last is a fault of the whole text, or of the file
        self.spoil(faults, notes)
        data = self.bytes()
        self.file = None if self.last == "absent" else FOLDER if self.last == "folder" else data

    def bytes(self):
        signed = self.signed()
        signature = self.spoil_signature(hmac.digest(self.key, signed.encode(), HASHES[self.algorithm]))
        data = self.with_last_fault(signed, bare_base64url(signature)).encode()
        return data + b"\n" * (MOST_BYTES + self.pick.choice((0, 0, 1, 77)) - len(data)) if self.last == "long" else data

    def signed(self):
        """The text that is signed, as it stands."""
        texts = {where: laid_out(self.pick, members.items()) for where, members in self.parts.items()}
        for where, *one in self.second:
            texts[where] = with_second(texts[where], *one)
        signed = ".".join(bare_base64url(self.raw.get(where, text.encode())) for where, text in texts.items())
        if self.last == "stray" and len(signed.split(".")[1]) % 4:
            return signed[:-1] + OTHER_LAST_DIGITS.get(signed[-1], "B")
        return signed + "=" if self.last == "padding" and self.pick.random() < 0.5 else signed

    def with_last_fault(self, signed, signature):
        """The token's text."""
        text = signed + "." + signature
        if self.last == "padding" and "=" not in text:
            text += "="
        if self.last == "pieces":
            few, many = [signed, signed + "."], [text + ".", text + ".x", "." + text, "." + signed]
            text = self.pick.choice([*few, *many, "", ".", "..", "...", signed.replace(".", "") + "." + signature, signature])
        if self.last == "space":
            return self.pick.choice(spaced(text))
        return text + self.pick.choice(("\n", "\r\n", "  ", "\t\n\x0c")) if self.pick.random() < 0.15 else text

    def fault_no_alg(self):
        self.parts["header"].pop("alg", None)

    def fault_alg(self):
        self.parts["header"]["alg"] = json.dumps(self.pick.choice(BAD_ALGORITHMS))

    def fault_alg_none(self):
        self.parts["header"]["alg"], self.spoil_signature = '"none"', lambda tag: b""

    def fault_alg_kind(self):
        self.parts["header"]["alg"] = self.pick.choice(WRONG_KINDS + ["256", '["HS256"]'])

    def fault_no_kid(self):
        self.parts["header"].pop("kid", None)

    def fault_kid(self):
        self.parts["header"]["kid"] = self.pick.choice(BAD_KEY_IDENTIFIERS)

    def fault_drop_claim(self):
        self.parts["claims"].pop(self.pick.choice(CLAIMS), None)

    def fault_claim_kind(self):
        value = self.pick.choice(WRONG_KINDS + ["8.5", "1"])
        self.parts["claims"][self.pick.choice(CLAIMS)] = value

    def fault_format(self):
        self.parts["claims"]["format"] = self.pick.choice(FORMATS)

    def fault_combo(self):
        self.parts["claims"]["cipherCombo"] = json.dumps(self.pick.choice(COMBINATIONS))

    def fault_threshold(self):
        self.parts["claims"]["shorteningThreshold"] = self.pick.choice(THRESHOLDS)

    def fault_key(self):
        encryption_key, mac_key = self.encryption_key, self.mac_key
        others = [mac_key + encryption_key, encryption_key, mac_key, encryption_key + encryption_key, b"", bytes(64)]
        self.key = self.pick.choice(others)

    def fault_sign_with(self):
        self.algorithm = self.pick.choice(("HS256", "HS384", "HS512"))

    def fault_bit(self):
        number = self.pick.randrange(8)
        self.spoil_signature = lambda tag: tag[:number] + bytes([tag[number] ^ 1 << number]) + tag[number + 1 :]

    def fault_signature(self):
        self.spoil_signature = self.pick.choice(BAD_SIGNATURES)

    def fault_raw(self):
        where = "header" if self.pick.random() < 0.5 else "claims"
        self.raw[where] = self.pick.choice(NOT_OBJECTS)

    def fault_double(self):
        where, is_first = self.pick.choice(("header", "claims")), self.pick.random() < 0.5
        name, value = self.pick.choice(SECOND_IN_HEADER if where == "header" else SECOND_CLAIMS)
        self.second.append((where, name, value, is_first))

    def fault_edge(self):
        value = self.pick.choice(EDGE_CLAIMS)
        self.parts["header" if self.pick.random() < 0.5 else "claims"]["x"] = value

    def fault_pieces(self):
        self.last = "pieces"

    def fault_space(self):
        self.last = "space"

    def fault_padding(self):
        self.last = "padding"

    def fault_stray(self):
        self.last = "stray"

    def fault_long(self):
        self.last = "long"

    def fault_absent(self):
        self.last = "absent"

    def fault_folder(self):
        self.last = "folder"


def spaced(text):
    """A text with white space, or what isn't any, in different places."""
    before = [" " + text, text.replace(".", ". ", 1), "\n" + text, text + "\x0b", text + "\0", text + "\u00a0", "\ufeff" + text]
    return [*before, text + "\n", text + " \t\r\n\x0c", text + "\n.\n", text[:20] + "\n" + text[20:], text + "\x1c"]


class Case:
    """A vault's key files, a secret, and whether that is its raw keys; `notes` tells the faults. Two in one case show the order of the tests."""

    def __init__(self, number):
        pick = self.pick = random.Random(f"key file case {number}")
        self.notes, self.has_root, self.is_raw = [], True, False
        self.encryption_key, self.mac_key = pick.randbytes(32), pick.randbytes(32)
        count = pick.choice((0, 0, 1, 1, 1, 1, 2, 2, 3))
        where = [pick.choice(("secret", "key", "key", "key", "token", "token", "token", "both")) for _ in range(count)]
        self.secret = self.drawn_secret("secret" in where)
        in_key_file, in_token = (sum(one in (name, "both") for one in where) for name in ("key", "token"))
        self.key_file = KeyFile(pick, self.password, self.encryption_key, self.mac_key, in_key_file, self.notes).file
        self.token = Token(pick, self.encryption_key, self.mac_key, in_token, self.notes).file
        if pick.random() < 0.04:
            self.has_root = False
            self.notes.append("no root")
        if pick.random() < 0.04:
            self.is_raw = True
            digits = pick.choice(SPELLINGS_OF_KEYS)((self.encryption_key + self.mac_key).hex())
            self.secret = digits.encode() + pick.choice((b"\n", b"", b"\n\n"))
            self.notes.append("raw key")

    def drawn_secret(self, is_spoiled):
        self.password = self.pick.choice(PASSWORDS)
        good = self.password.encode()
        secret = good + self.pick.choice((b"", b"\n", b"\n\n", b"\nsecond", b"\n\xff"))
        if not is_spoiled:
            return secret
        way = self.pick.choice(list(BAD_LINES))
        self.notes.append(way)
        if way == "another":
            return good + b"x\n" if len(good) < 1024 else b"x\n"
        return BAD_LINES[way]

    def put(self, folder):
        """Writes the vault into a folder that is there."""
        for name, data in (KEY_FILE, self.key_file), (VAULT_FILE, self.token):
            path = os.path.join(folder, name)
            if data is FOLDER:
                os.mkdir(path)
            elif data is not None:
                write(path, data)
        root = root_folder_parts(self.mac_key) if self.has_root else ("d",)
        os.makedirs(os.path.join(folder, *root))
