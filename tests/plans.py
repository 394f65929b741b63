"""Texts of plans that several tests start from."""

# The plan of `docs/FORMATS.md`, "The plan".
WHOLE = """station = 7
[[peer]]
id = 1
station = 3
listen = "127.0.0.1:4001"
remote = "127.0.0.1:4002"
[[hop]]
id = 1
station = 9
listen = "127.0.0.1:4003"
remote = "127.0.0.1:4004"
resend = 160
contacts = [[100, 200], [300, 350]]
[[route]]
destination = 12
hop = 1
"""

# The same with a folder in place of each station, which has every key that a folder may have.
FOLDERS = """station = 7
[[peer]]
id = 1
station = 3
folder = "in"
destination = 12
limit = 60000
[[hop]]
id = 1
station = 9
folder = "out"
most = 100
lead = 30
contacts = [[100, 200], [300, 350]]
[[route]]
destination = 12
hop = 1
"""


def changed(old, new, text=WHOLE):
    """The text with `new` in place of the first `old`."""
    at = text.index(old)
    return text[:at] + new + text[at + len(old):]


def neighbours(count, more=""):
    """So many peers or hops, each as it comes in its array, with `more` behind its addresses."""
    return "".join(f"{{ id = {id}, station = {id}, listen = '', remote = ''{more} }}," for id in range(1, count + 1))
