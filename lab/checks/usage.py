"""What a command of lab/ says of itself."""

import sys


def heed(name, about, *words, needed=0):
    """Ends where the usage is asked for, or where there are more words than the command takes, or fewer than it needs. `words` names those
    that it takes, of which the first ones are `needed` and the others may be left out. The words that came, else."""
    optional = words[needed:]
    line = " ".join([f"usage: lab/{name}", *words[:needed], *(f"[{word}" for word in optional)]) + "]" * len(optional)
    came = sys.argv[1:]
    if came and came[0] in ("-h", "--help"):
        print(f"{line}\n\n{about}")
        sys.exit(0)
    if not needed <= len(came) <= len(words):
        print(line, file=sys.stderr)
        sys.exit(1)
    return came
