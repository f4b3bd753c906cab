"""Random lines of a JSON session, and what python's json module makes of them; see ipc_lines.sh."""
import json
import random
import subprocess
import sys

WORDS = ["get_property", "get_property_string", "set_property", "observe_property",
         "unobserve_property", "client_name", "seek", "script-message", "quit", "", "Get_property"]
NAMES = ["pause", "track-list/0", "größer", "a\\\"b", "\U0001f600", "x y"]
NUMBERS = ["0", "-0", "1", "-1", "7", "1.5", "1.0", "1e2", "-1E-2", "127", "9223372036854775807",
           "9223372036854775808", "-9223372036854775808", "-9223372036854775809",
           "18446744073709551615", "18446744073709551616", "1e308", "1e309", "01", "+1", ".5", "5.",
           "NaN", "-Infinity"]
STRINGS = ['"\\ud800"', '"\\ud83d\\ude00"', '"\\udc00\\ud800"', '"\\u00e9"', '"\\/"', '"\\b\\t"',
           '"\\x41"', '"\t"', '"\\u12"', '""', '"open']
OCTETS = b"\x00\x09\x0d\x20\"',-.0123456789:[\\]abcdeflnrstu{}\x7f\x80\xbf\xc3\xe2\xed\xf0\xff"


def scalar(rng):
    kind = rng.randrange(6)
    if kind == 0:
        return rng.choice(NUMBERS)
    if kind == 1:
        return rng.choice(["true", "false", "null", "tru", "True"])
    if kind == 2:
        return rng.choice(STRINGS)
    if kind == 3:
        return str(rng.randrange(-20, 20))
    return json.dumps(rng.choice(NAMES), ensure_ascii=rng.random() < 0.5)


def value(rng, depth):
    kind = rng.randrange(8)
    if depth == 0 or kind < 5:
        return scalar(rng)
    if kind < 7:
        return "[" + ",".join(value(rng, depth - 1) for _ in range(rng.randrange(4))) + "]"
    return "{" + ",".join('"%s":%s' % (rng.choice("abc"), value(rng, depth - 1))
                          for _ in range(rng.randrange(4))) + "}"


def good_arguments(rng, word):
    name = json.dumps(rng.choice(NAMES))
    plain = rng.choice(["true", "false", "5", "-3", json.dumps(rng.choice(NAMES))])
    if word.startswith("get_property"):
        return [name]
    if word == "set_property":
        return [name, plain]
    if word == "observe_property":
        return [str(rng.randrange(9)), name]
    if word == "unobserve_property":
        return [str(rng.randrange(9))]
    if word == "client_name":
        return []
    return [rng.choice([name, plain]) for _ in range(rng.randrange(4))]


def command(rng):
    if rng.random() < 0.1:
        return value(rng, 2)
    word = rng.choice(WORDS)
    if rng.random() < 0.6:
        arguments = good_arguments(rng, word)
    else:
        arguments = [value(rng, 1) for _ in range(rng.randrange(4))]
    first = json.dumps(word) if rng.random() < 0.95 else value(rng, 1)
    return "[" + ",".join([first] + arguments) + "]"


def nested(rng):
    depth = rng.choice([1, 60, 125, 126, 127, 128, 200, 2000])
    if rng.random() < 0.5:
        return "[" * depth + "]" * depth
    return '{"a":' * depth + "1" + "}" * depth


def request(rng):
    members = []
    if rng.random() < 0.97:
        members.append('"command":' + command(rng))
    if rng.random() < 0.7:
        number = scalar(rng) if rng.random() < 0.3 else str(rng.randrange(100))
        members.append('"request_id":' + number)
    if rng.random() < 0.2:
        members.append('"other":' + (nested(rng) if rng.random() < 0.3 else value(rng, 3)))
    if rng.random() < 0.05:
        members.append(rng.choice(members or ['"a":1']))
    rng.shuffle(members)
    gap = rng.choice(["", "", "", " ", "\t", "\r", "\u00a0"])
    return gap + "{" + (", " if gap else ",").join(members) + "}" + gap


def mutated(rng, line):
    line = bytearray(line)
    for _ in range(rng.randrange(1, 4)):
        at = rng.randrange(len(line) + 1)
        kind = rng.randrange(3)
        if kind == 0:
            line[at:at] = bytes([rng.choice(OCTETS)])
        elif kind == 1:
            line[at:at + 1] = bytes([rng.choice(OCTETS)])
        else:
            del line[at:at + rng.randrange(1, 4)]
    return bytes(line)


def line(rng):
    kind = rng.random()
    if kind < 0.05:
        return bytes(rng.choice(OCTETS) for _ in range(rng.randrange(12)))
    if kind < 0.1:
        return value(rng, 3).encode()
    if kind < 0.3:
        return mutated(rng, request(rng).encode())
    return request(rng).encode()


class Refused(Exception):
    """The text is no JSON here."""


def refused(_word):
    raise Refused


def double(text):
    number = float(text)
    if number in (float("inf"), float("-inf")):
        raise Refused
    return number


def integer(text):
    number = int(text)
    if text != "-0" and -2 ** 63 <= number < 2 ** 64:
        return number
    return double(text)


def walk(found, depth):
    """Refuses what is too deep and halves of surrogate pairs, and takes objects as dicts."""
    if isinstance(found, str):
        if any(0xD800 <= ord(c) < 0xE000 for c in found):
            raise Refused
        return found
    if isinstance(found, (list, tuple)) and depth == 0:
        raise Refused
    if isinstance(found, tuple):
        return {walk(k, depth): walk(v, depth - 1) for k, v in found}
    if isinstance(found, list):
        return [walk(v, depth - 1) for v in found]
    return found


def read(octets):
    try:
        found = json.loads(octets.decode("utf-8"), parse_constant=refused, parse_float=double,
                           parse_int=integer, object_pairs_hook=tuple)
        return True, walk(found, 127)
    except (ValueError, RecursionError, Refused):
        return False, None


def is_integer(found):
    return isinstance(found, int) and not isinstance(found, bool)


def is_number(found):
    return is_integer(found) and 0 <= found < 2 ** 63


def is_scalar(found):
    return isinstance(found, (str, bool)) or is_integer(found) and -2 ** 63 <= found < 2 ** 63


def text(found):
    if isinstance(found, bool):
        return "yes" if found else "no"
    return str(found)


def quoted(s):
    out = ""
    for c in s:
        out += "\\" + c if c in '"\\' else "\\u%04x" % ord(c) if c < " " else c
    return '"' + out + '"'


def shown(found):
    if isinstance(found, str):
        return quoted(found)
    return text(found) if not isinstance(found, bool) else "true" if found else "false"


def call(words, n):
    word, given = words[0], words[1:]
    if word in ("get_property", "get_property_string"):
        if len(given) == 1 and isinstance(given[0], str):
            return "core %d get %d %s %s" % (n, n, given[0], "string" if "string" in word else "node")
        return None
    if word == "set_property":
        if len(given) == 2 and isinstance(given[0], str) and is_scalar(given[1]):
            return "core %d set %d %s %s" % (n, n, given[0], shown(given[1]))
        return None
    if word == "observe_property":
        if len(given) == 2 and is_number(given[0]) and isinstance(given[1], str):
            return "core %d observe %d %s node" % (n, given[0], given[1])
        return None
    if word == "unobserve_property":
        if len(given) == 1 and is_number(given[0]):
            return "core %d unobserve %d" % (n, given[0])
        return None
    if word == "client_name":
        return "name %d" % n if not given else None
    if all(is_scalar(w) for w in given):
        return "core %d command %d %s" % (n, n, "".join(text(w) + "|" for w in words))
    return None


def asked(octets):
    if not octets:
        return "skip"
    is_json, found = read(octets)
    if not is_json or not isinstance(found, dict):
        return "bad 0"
    n = found.get("request_id", 0)
    if not is_number(n):
        return "bad 0"
    words = found.get("command")
    if isinstance(words, list) and words and isinstance(words[0], str):
        said = call(words, n)
        if said is not None:
            return said
    return "bad %d" % n


def main():
    program, seed, count = sys.argv[1], int(sys.argv[2]), int(sys.argv[3])
    rng = random.Random(seed)
    lines = [line(rng) for _ in range(count)]
    rows = "".join('["parse_octets","%s"]\n' % x.hex().upper() for x in lines)
    ended = subprocess.run([program], input=rows.encode(), stdout=subprocess.PIPE, check=True)
    answers = ended.stdout
    wrong = 0
    for x in lines:
        wanted = asked(x).encode() + b"\n"
        if not answers.startswith(wanted):
            wrong += 1
            print("ipc lines: %r: %r is owed, %r came" % (x, wanted, answers[:len(wanted)]))
            break
        answers = answers[len(wanted):]
    kinds = [asked(x).split(" ")[0] for x in lines]
    told = ", ".join("%d %s" % (kinds.count(k), k) for k in ("core", "name", "bad", "skip"))
    print("ipc lines: %d lines (%s; %d of them JSON), %s" % (
        count, told, sum(read(x)[0] for x in lines), "none differs" if not wrong else "one differs"))
    sys.exit(1 if wrong else 0)


main()
