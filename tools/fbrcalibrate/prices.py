"""Lists of prices, as `fbr time --calibration` reads them (crates/fbr_time/src/list.rt)."""
import hashlib
import platform

HEAD = "fbr prices 1"
AROUND = {
    "TURN": "a turn, besides its dispatch",
    "DATAGRAM": "a datagram is received and delivered",
    "EFFECT": "a datagram is sent to a peer, or a line is printed",
    "JITTER": "the longest turn that was seen",
}
WORDS = """DISPATCH SAMPLE SCAN SKIP OPEN GUARD CROSS ACT CALL ISSUE GIVE PUT CONSTANT VARIABLE ELEMENT ADD MULTIPLY DIVIDE MODULO COMPARE LOGIC EXTREME
NEGATE NOT ABSOLUTE CONVERT ASSIGN ASSIGN_ELEMENT IF BRANCH CASE ARM LABEL FOR ITERATION RECEIVE WRITE SEND TAKE INITIALIZE RESPOND BEGIN START STOP EXPIRE
VALUE""".split()
Prices = dict[str, int]


def listed(digest: str, machine: str, prices: Prices, around: Prices) -> str:
    """The text of a list; a primitive that has no price is given none."""
    lines = [HEAD, f"program {digest}", f"machine {machine}"]
    lines += [f"{word} {prices.get(word, 0)}" for word in WORDS] + [f"{word} {around[word]}" for word in AROUND]
    return "\n".join(lines) + "\n"


def digest_of(file: str) -> str:
    """The SHA-256 of a file."""
    with open(file, "rb") as bytes_of:
        return hashlib.file_digest(bytes_of, "sha256").hexdigest()


def machine() -> str:
    """This machine, in a line."""
    with open("/proc/cpuinfo", encoding="utf-8") as lines:
        models = [line.partition(":")[2].strip() for line in lines if line.startswith(("model name", "Model"))]
    name = models[-1] if models else platform.machine()
    return f"{platform.node()}, {len(models) or 1} x {name}, {platform.system()} {platform.release()}"


def table(rows: list[tuple[str, int, str]]) -> str:
    """What people read: each word, its price in nanoseconds, and what it is."""
    lines = [f"{'primitive':<16}{'ns':>14}  what it is"]
    return "\n".join(lines + [f"{word:<16}{price / 1000:>14,.3f}  {about}" for word, price, about in rows]) + "\n"
