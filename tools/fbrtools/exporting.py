"""From one text to files in XML: what fbr-export does."""
import argparse
import os
import sys

from . import program, spelling, text_read, xml_write
from .refusals import Unreadable

PROGRAM = "fbr-export"
# Statuses of fbr: with 0 and 1 the text is one of an application, with or without a certificate; with 2 it is none.
IS_TEXT, IS_NONE = (0, 1), 2


def words_of(arguments):
    description = "Writes the text of an application as files in XML of IEC 61499-2: a .fbt of each type, and a .sys."
    parser = argparse.ArgumentParser(prog=PROGRAM, description=description)
    parser.add_argument("app", metavar="APP", help="the text, which fbr has to accept")
    parser.add_argument("-o", dest="folder", metavar="FOLDER", required=True, help="the folder for the files; it is made if it is not there")
    return parser.parse_args(arguments)


def files_of(application):
    """The files by their names."""
    files = {f"{it.name}.fbt": xml_write.block_type(it) for it in application.types}
    files |= {f"{name}.fbt": xml_write.service_type(it) for name, it in xml_write.service_types(application).items()}
    files[f"{application.system.name}.sys"] = xml_write.system(application.system)
    return {name: xml_write.document(root) for name, root in files.items()}


def refusals(file):
    """What the program says against this text, as lines for people; raises Unreadable if it cannot read it."""
    answer = program.explained(file)
    if answer["status"] in IS_TEXT:
        return []
    if answer["status"] != IS_NONE:
        raise Unreadable(f"{file}: {answer['line']}: {answer['says']}")
    place = answer.get("place", {})
    where = f"{file}:{place['line']}" if place else file
    return [f"{where}: {answer['line']}: {answer.get('found', answer['says'])}; mend the text first: 'fbr explain {file}' says more"]


def main(arguments):
    """Statuses: 0 written, 1 refused, 2 the words are at fault, 3 a file failed or there is no program."""
    words = words_of(arguments)
    try:
        told = refusals(words.app)
        if not told:
            with open(words.app, encoding="utf-8") as it:
                application = text_read.read(it.read(), words.app)
            spelling.spell(application)
            for it in xml_write.clashes(application):
                told.append(f"{it.place}: {it.name}: a service of fbr has this name in XML; rename the type")
        if told:
            for line in told:
                print(f"{PROGRAM}: {line}", file=sys.stderr)
            return 1
        write(words.folder, files_of(application))
    except (Unreadable, program.NoProgram, OSError) as fault:
        print(f"{PROGRAM}: {fault}", file=sys.stderr)
        return 3
    except text_read.TextError as fault:
        print(f"{PROGRAM}: {words.app}: {fault}; fbr accepts this text, and this tool does not read it", file=sys.stderr)
        return 3
    return 0


def write(folder, files):
    os.makedirs(folder, exist_ok=True)
    for name, text in files.items():
        with open(os.path.join(folder, name), "w", encoding="utf-8") as it:
            it.write(text)
