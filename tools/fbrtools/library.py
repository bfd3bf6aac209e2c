"""Finds the types that a system names: in the files that were given, beside these, and in the folders of --library."""
import os

from . import known_types, types_read, xml_shapes, xml_tree
from .model import Place
from .refusals import Unreadable

ENDINGS = (".fbt", ".sub")
# Types of the program, whatever a file of their name has in it.
OWN_SERVICES = frozenset(known_types.TIMERS)


class Library:
    """The types by their names in capitals; each is read when it is first asked for."""

    def __init__(self, files, folders, findings):
        self.findings, self.types, self.files, self.others = findings, {}, {}, {}
        for file in files:
            if not os.path.isfile(file):
                raise Unreadable(f"{file}: no such file")
            self.enter(file)
        for folder in dict.fromkeys(os.path.dirname(it) for it in files):
            self.search(folder or ".", recursive=False)
            self.search(os.path.join(folder, "Type Library"), recursive=True)
        for folder in folders:
            if not os.path.isdir(folder):
                raise Unreadable(f"{folder}: no such folder")
            self.search(folder, recursive=True)

    def enter(self, file):
        """Notes a file by the type that its name says; the first one of a name is taken."""
        name, ending = os.path.splitext(os.path.basename(file))
        if ending.lower() in ENDINGS:
            kept = self.files.setdefault(name.upper(), file)
            if os.path.realpath(kept) != os.path.realpath(file):
                self.others.setdefault(name.upper(), []).append(file)

    def search(self, folder, recursive):
        for place, folders, names in os.walk(folder):
            folders[:] = sorted(folders) if recursive else []
            for name in sorted(names):
                self.enter(os.path.normpath(os.path.join(place, name)))

    def get(self, name):
        """A block type with an interface, or None; `network` of a subapplication type is a network that is flattened."""
        key = name.upper()
        if key not in self.types:
            self.types[key] = self.find(key)
        return self.types[key]

    def find(self, key):
        known = known_types.interface(key)
        found = None if key in OWN_SERVICES else self.read(key)
        if known is not None and (found is None or is_service(found)):
            return known
        return found

    def read(self, key):
        if key not in self.files:
            return None
        root = read_xml(self.files[key], self.findings)
        if root is None:
            return None
        if root.tag not in ("FBType", "SubAppType"):
            self.findings.refuse(root.place, root.subject, "the root element is neither FBType nor SubAppType", "give a file of a block type")
            return None
        if root.get("Name").upper() != key:
            problem = f"the file has another name than its type, {os.path.basename(self.files[key])}"
            self.findings.refuse(root.place, root.subject, problem, "name the file like its type")
        for other in self.others.get(key, []):
            self.findings.note(Place(other), root.subject, f"{self.files[key]} is used instead of this file")
        read = types_read.block_type if root.tag == "FBType" else types_read.subapplication_type
        return read(root, self.findings)

    def is_subapplication(self, name):
        return self.files.get(name.upper(), "").lower().endswith(".sub")


def is_service(it):
    return not it.states and it.network is None


def read_xml(file, findings):
    """The root of a file, with what is not understood in it told; None, with a refusal, if it is no XML."""
    try:
        with open(file, "rb") as it:
            data = it.read(xml_tree.LONGEST + 1)
    except OSError as error:
        raise Unreadable(f"{file}: {error.strerror}") from error
    try:
        root = xml_tree.parse(data, file)
    except xml_tree.NotXml as fault:
        findings.refuse(fault.place or Place(file), "the file", fault.problem, fault.remedy)
        return None
    xml_shapes.examine(root, findings)
    return root
