"""From files in XML to one text: what fbr-import does."""
import argparse
import os
import sys

from . import channels, crossings, model, names, services, system_read, text_write, value_types, wiring
from .flatten import DEEPEST, flat
from .library import ENDINGS, Library, is_service, read_xml
from .refusals import Findings, Unreadable

PROGRAM = "fbr-import"


class Import:
    """One run: `findings` has all that is refused and told, `text` and `table` are what is written if nothing is refused."""

    def __init__(self, files, folders):
        self.findings = Findings()
        self.library = Library(files, folders, self.findings)
        self.text, self.table = "", ""
        roots = [(it, read_xml(it, self.findings)) for it in files if not it.lower().endswith(ENDINGS)]
        given = [os.path.splitext(os.path.basename(it))[0] for it in files if it.lower().endswith(ENDINGS)]
        plants = [self.plant(file, root) for file, root in roots[:1] if root is not None]
        for file, _ in roots[1:]:
            self.findings.refuse(model.Place(file), "the file", "another system was given before it", "import one system at a time")
        self.application(plants[0] if plants else system_read.Plant(model.System("Types")), given)

    def plant(self, file, root):
        if root.tag != "System":
            self.findings.refuse(root.place, root.subject, "the root element is not System", "give a .sys, and types as .fbt and .sub")
            return system_read.Plant(model.System("Types"))
        return system_read.plant_of(root, self.library, self.findings)

    def application(self, plant, given):
        """Translates all networks, and writes the text and the table."""
        crossings.add_channels(plant, self.library, self.findings)
        types = self.types_below(plant, given)
        networks = [(it.network, it) for it in types if it.network is not None] + [(it, None) for _, it in plant.networks()]
        for network, own in networks:
            wiring.check(network, own, self.library, self.findings)
        numbers = channels.numbers([network for network, _ in networks], self.findings)
        translator = services.Translator(self.library, numbers, value_types.Inference(networks, self.library, self.findings), self.findings)
        rows = self.translate(plant, networks, translator)
        made = dict(translator.types)
        for it in types:
            if it.network is not None:
                services.pass_through(it, made, self.findings)
        whole = model.Application([*made.values(), *types], plant.system)
        names.check(whole, self.findings)
        if not self.findings.refusals:
            self.text, self.table = text_write.text_of(whole), "".join(f"{it}\n" for it in channel_rows(translator, numbers) + rows)

    def types_below(self, plant, given):
        """The types that the system needs and those that were given, each after the types of its own instances."""
        found, entered = {}, set()

        def enter(name, above):
            kind = self.library.get(name)
            if kind is None or name.upper() in found:
                return
            if name.upper() in above or len(above) > DEEPEST:
                problem = "it contains itself" if name.upper() in above else f"it is within more than {DEEPEST} composites"
                self.findings.refuse(kind.place, f"FBType {kind.name}", problem, "break the circle" if name.upper() in above else "flatten them")
                return
            if kind.network is not None and name.upper() not in entered:
                entered.add(name.upper())
                kind.network = flat(kind.network, self.library, self.findings).network
            for it in kind.network.instances if kind.network is not None else []:
                enter(it.type, (*above, name.upper()))
            if not is_service(kind):
                found[name.upper()] = kind

        for name in given:
            if not self.library.is_subapplication(name):
                enter(name, ())
        for _, network in plant.networks():
            for it in network.instances:
                enter(it.type, ())
        return list(found.values())

    def translate(self, plant, networks, translator):
        """Translates each network; gives the table's rows of the terminals."""
        rows, composites = [], [network for network, own in networks if own is not None]
        for at, network in enumerate(composites):
            translator.network(at, network, None)
        at = len(composites)
        for device in plant.system.devices:
            terminals = services.Terminals(device.name, [*composites, *(it.network for it in device.resources)])
            for resource in device.resources:
                translator.network(at, resource.network, terminals)
                at += 1
            rows += terminals.rows
        return rows


def channel_rows(translator, numbers):
    """A row for each channel: its number, the ID or the event that it carries, and the types of its values."""
    rows = []
    for name, number in sorted(numbers.items(), key=lambda it: it[1]):
        kinds = translator.channel_types.get(name)
        rows.append(" ".join(["CHANNEL", str(number), name, *(it or "?" for it in (kinds[0].value_types if kinds else []))]))
    return rows


def words_of(arguments):
    description = "Makes one text for fbr of files in XML of IEC 61499-2, as 4diac IDE, FBDK and EcoStruxure write them."
    parser = argparse.ArgumentParser(prog=PROGRAM, description=description)
    parser.add_argument("files", metavar="FILE", nargs="+", help="a system (.sys), and types (.fbt, .sub); types are looked for beside these files too")
    parser.add_argument("-o", dest="output", metavar="APP", help="writes the text to APP, which is left alone if anything is refused")
    parser.add_argument("--table", metavar="FILE", help="writes to FILE which channel has which ID, and which number each terminal has")
    parser.add_argument("--library", metavar="FOLDER", action="append", default=[], help="a folder with further types, and its folders; may be given again")
    return parser.parse_args(arguments)


def write(file, text):
    try:
        with open(file, "w", encoding="utf-8") as it:
            it.write(text)
    except OSError as error:
        raise Unreadable(f"{file}: {error.strerror}") from error


def main(arguments):
    """Statuses: 0 written, 1 refused, 2 the words are at fault, 3 a file failed."""
    words = words_of(arguments)
    try:
        done = Import(words.files, words.library)
        for line in done.findings.lines(PROGRAM):
            print(line, file=sys.stderr)
        if done.findings.refusals:
            return 1
        if words.table:
            write(words.table, done.table)
        if words.output:
            write(words.output, done.text)
        else:
            sys.stdout.write(done.text)
    except Unreadable as fault:
        print(f"{PROGRAM}: {fault}", file=sys.stderr)
        return 3
    return 0
