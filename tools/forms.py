"""The lines of scripts: what may stand in the place of each word. docs/SCRIPT.md has the same forms in its tables, which .ci checks."""
import re

MOST = 4294967295
LIMITS = {
    "msgids": (1, 1024),
    "pipes": (1, 256),
    "dests": (1, 64),
    "depth": (1, 1024),
    "msgmax": (7, 65542),
    "pool": (24, 16777216),
    "apppool": (24, 1048576),
    "tables": (1, 256),
    "handles": (1, 1024),
    "tablemax": (1, 65536),
    "tablepool": (24, 16777216),
}
# The form of each line, as docs/SCRIPT.md spells it: `[` begins the words that may be left out.
CONFIGURATION = {
    "script": "VERSION",
    "set": "NAME VALUE",
    "sizes": "S1 S2 ..",
    "seq": "ID COUNT",
    "app": "NAME",
}
CALLS = {
    "create": "pN DEPTH NAME",
    "delete": "pN",
    "opts": "pN BITS",
    "getopts": "pN",
    "find": "pN NAME",
    "pname": "pN",
    "sub": "ID pN [LIMIT [global or local]]",
    "unsub": "ID pN",
    "send": "ID SIZE FILL [inc or keep]",
    "sendraw": "HEX [inc or keep]",
    "recv": "pN",
    "pend": "pN",
    "alloc": "bN SIZE",
    "form": "bN ID FILL",
    "put": "bN OFFSET HEX",
    "xmit": "bN [inc or keep]",
    "release": "bN",
    "show": "pN or tN",
    "pool": "qN BYTES",
    "pget": "mN qN SIZE",
    "pput": "qN mN",
    "pstats": "qN",
    "evreg": "[ID:MASK, up to 8 words]",
    "event": "ID TYPE [TEXT]",
    "evreset": "ID",
    "logmode": "MODE",
    "logclear": "",
    "hk": "",
    "stats": "",
    "treg": "tN NAME SIZE OPT [O:LO:HI, up to 8 words]",
    "tshare": "tN NAME",
    "tunreg": "tN",
    "tstage": "tN OFFSET CONTENT",
    "tfile": "tN HEX",
    "tval": "tN",
    "tupd": "tN",
    "tabort": "tN",
    "tload": "tN OFFSET CONTENT",
    "tget": "tN",
    "trel": "tN",
    "tstat": "tN",
}
# A line of a plan.
ROUTES = {"route": "ID LIMIT"}
# The first line of each kind of register that sets one.
SETTERS = {
    "p": ("create", "find"),
    "b": ("alloc",),
    "q": ("pool",),
    "m": ("pget",),
    "t": ("treg", "tshare", "tfile"),
}
REGISTERS = {"p": ("a pipe", 63), "b": ("a buffer", 63), "q": ("a memory pool", 7), "m": ("a grant", 63), "t": ("a table handle", 63)}
# The ranges of numbers, by the word in a form; of some in one line another one.
RANGES = {
    "VERSION": (1, 2),
    "ID": (0, 65535),
    "DEPTH": (0, 65535),
    "BITS": (0, 255),
    "LIMIT": (0, 65535),
    "SIZE": (0, MOST),
    "FILL": (0, 255),
    "OFFSET": (0, 65536),
    "BYTES": (0, MOST),
    "TYPE": (1, 4),
    "MODE": (0, 1),
    "OPT": (0, 7),
    "COUNT": (0, 16383),
    "VALUE": (0, MOST),
}
OTHER_RANGES = {
    "VERSION": (1, 2),
    ("seq", "ID"): (1, 8191),
    ("route", "ID"): (1, 8191),
    ("send", "SIZE"): (7, 65542),
    ("alloc", "SIZE"): (0, 65542),
    ("put", "OFFSET"): (0, 65541),
    ("treg", "SIZE"): (0, 1000000),
}
LISTS = {"ID:MASK": (65535, 65535), "O:LO:HI": (65535, 255, 255), "fill:LEN:BYTE": (65536, 255)}
NUMBER = re.compile(r"0|[1-9][0-9]*|0x[0-9a-fA-F]{1,8}")
HEX = re.compile(r"([0-9a-fA-F]{2}){1,256}")
BAD, FAR = "BadWord", "OutOfRange"


def places_of(form):
    """The places of a form, how many of them must be filled, and how many words there may be."""
    must, _, may = form.partition("[")
    several = re.search(r"(\S+), up to 8 words", may)
    needed = [it for it in re.split(r" (?!or )(?<! or )", must.strip()) if it] if must.strip() else []
    optional = [several[1]] * 8 if several else [it for it in re.split(r" (?!or )(?<! or )", re.sub(r"[][]", "", may)) if it]
    if needed[-1:] == [".."]:
        needed, optional = needed[:1], needed[1:2] * 16
    return needed + optional, len(needed), len(needed) + len(optional)


def number_of(word):
    """The number that a word spells; None if it spells none."""
    if not NUMBER.fullmatch(word):
        return None
    number = int(word, 16 if word.startswith("0x") else 10)
    return number if number <= MOST else None


def why_no_number(word):
    if re.fullmatch(r"0\d+", word):
        return "a decimal number doesn't begin with 0"
    if re.fullmatch(r"-\d+", word):
        return "no number is negative"
    if re.fullmatch(r"0[xX][0-9a-fA-F]{9,}|\d{10,}", word):
        return f"a number is at most {MOST}"
    if re.fullmatch(r"0X[0-9a-fA-F]+|[0-9a-fA-F]+h?", word):
        return "a hexadecimal number begins with 0x"
    return f"{word} is no number"


def range_of(line, place):
    return OTHER_RANGES.get((line, place)) or RANGES.get(place)


def wanted_of_number(line, place):
    low, high = range_of(line, place)
    return f"{place} is a number from {low} to {high}"


def fault_of_number(line, place, word):
    low, high = range_of(line, place)
    number = number_of(word)
    if number is None:
        return BAD, why_no_number(word)
    return None if low <= number <= high else (FAR, f"{number} is too {'small' if number < low else 'large'}")


def fault_of_list(place, word):
    """A word of numbers with colons between them."""
    parts = word.split(":")
    names = place.split(":")
    if len(parts) != len(names) or (names[0] == "fill" and parts[0] != "fill"):
        return BAD, f"{len(parts)} parts, and {place} has {len(names)}"
    pairs = list(zip(parts, names))[1 if names[0] == "fill" else 0 :]
    for (part, name), most in zip(pairs, LISTS[place]):
        number = number_of(part)
        if number is None:
            return BAD, why_no_number(part)
        if number > most or (name == "LEN" and number == 0):
            return FAR, f"{name} is a number from {1 if name == 'LEN' else 0} to {most}"
    return None


def fault_of_hex(word):
    if HEX.fullmatch(word):
        return None
    if re.fullmatch(r"[0-9a-fA-F]*", word):
        return BAD, "two digits make a byte: their number is even" if len(word) % 2 else f"{len(word)} digits, and there may be 512"
    if word.startswith("0x"):
        return BAD, "bytes have no 0x before them"
    return BAD, "a letter isn't 0 to 9 or a to f"


def fault_of_register(letters, word):
    letter = word[:1]
    if letter not in letters:
        return BAD, f"{word} is no {' or '.join(f'register {it}0 to {it}{REGISTERS[it][1]}' for it in letters)}"
    if re.fullmatch(r"0|[1-9]\d?", word[1:]) and int(word[1:]) <= REGISTERS[letter][1]:
        return None
    return BAD, f"the last of these registers is {letter}{REGISTERS[letter][1]}" if word[1:].isdigit() else f"{word} is no register"


def wanted(line, place):
    """What stands in a place of a line, in words."""
    letters = re.findall(r"\b([pbqmt])N\b", place)
    if letters:
        return " or ".join(f"{it}0 to {it}{REGISTERS[it][1]}, {REGISTERS[it][0]}" for it in letters)
    if (line, place) == ("set", "NAME"):
        return f"the name of a limit: {', '.join(LIMITS)}"
    if (line, place) == ("app", "NAME"):
        return "NAME is 1 to 19 letters, digits or _"
    fixed = {"NAME": "NAME is a word of at most 64 bytes; - alone is the empty name", "HEX": "HEX is 2 to 512 hexadecimal digits, an even number of them"}
    fixed.update({"CONTENT": "CONTENT is HEX, or fill:LEN:BYTE", "S1": "sizes are multiples of 8 from 8 to 80000, rising", "S2": "sizes are multiples of 8 from 8 to 80000, rising"})
    if place in fixed:
        return fixed[place]
    if place in LISTS:
        return f"{place}, with {', '.join(f'{name} at most {most}' for name, most in zip(place.split(':'), LISTS[place]))}"
    return wanted_of_number(line, place) if place in RANGES else place


def fault_of_word(line, place, word):
    """What is wrong with a word in this place of a line: the fault's name, and why; None if nothing is."""
    letters = re.findall(r"\b([pbqmt])N\b", place)
    if letters:
        return fault_of_register(letters, word)
    if (line, place) == ("set", "NAME"):
        return None if word in LIMITS else (BAD, f"there is no limit {word}")
    if (line, place) == ("app", "NAME"):
        return None if re.fullmatch(r"[A-Za-z0-9_]{1,19}", word) else (BAD, "a letter isn't allowed, or there are more than 19")
    if place == "NAME":
        return None if len(word) <= 64 else (FAR, f"{len(word)} bytes")
    if place == "HEX":
        return fault_of_hex(word)
    if place == "CONTENT":
        return fault_of_list("fill:LEN:BYTE", word) if word.startswith("fill:") else fault_of_hex(word)
    if place in LISTS:
        return fault_of_list(place, word)
    if place in RANGES:
        return fault_of_number(line, place, word)
    if place in ("S1", "S2"):
        return None if number_of(word) is not None else (BAD, why_no_number(word))
    if place == "TEXT":
        return None
    return None if word in place.split(" or ") else (BAD, f"{word} is neither")
