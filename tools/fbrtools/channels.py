"""Numbers the channels: one for each ID, and one for each event that crosses devices by a wire."""
import re

from . import known_types

# The usual addresses: the last two bytes are the number.
MULTICAST = re.compile(r"239\.192\.(\d{1,3})\.(\d{1,3}):61499\Z")
HIGHEST = 65535


def identifier(instance):
    """The ID of a PUBLISH or SUBSCRIBE without quotes, or the event that it carries; empty if there is none."""
    return instance.attributes.get("wire") or instance.parameters.get("ID", "").strip().strip("\"'").strip()


def is_end(instance):
    return known_types.PUBLISHING.match(instance.type.upper()) is not None


def numbers(networks, findings):
    """The number of each channel by its ID; IDs without a number of their own get the lowest free ones, in the order of the text."""
    found, left = {}, []
    for network in networks:
        for it in filter(is_end, network.instances):
            name = identifier(it)
            if not name:
                findings.refuse(it.place, f"FB {it.name}", f"{it.type} has no ID", 'give it one, such as "239.192.0.2:61499"')
            elif own_number(name) is not None:
                found[name] = own_number(name)
            elif name not in left:
                left.append(name)
    free = 1
    for name in left:
        while free in found.values():
            free += 1
        found[name] = free
    return found


def own_number(name):
    match = MULTICAST.match(name)
    if not match or int(match[1]) > 255 or int(match[2]) > 255:
        return None
    return int(match[1]) * 256 + int(match[2])
