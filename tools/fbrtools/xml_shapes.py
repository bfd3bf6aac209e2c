"""Which elements and attributes are understood where; what is not is told by its name."""

# Attributes that say how an element is drawn, or who wrote it: none has a meaning for an application.
DRAWING = frozenset("x y dx1 dx2 dy width height locked Color Visible ID GUID Namespace".split())
NAMED = frozenset("Name Comment".split())

# Elements whose contents say nothing of what runs; Input and Output are where EcoStruxure draws the ports of a composite.
IGNORED = frozenset("Identification VersionInfo CompilerInfo Attribute Segment Link Group Service Input Output".split())
# Attributes of <Attribute> elements that are known to be drawing and tools' own.
QUIET_ATTRIBUTES = ("Color", "Profile", "Configuration", "FBType.", "eclipse4diac", "Visible", "TypeHash", "Unfolded", "VarConfig")

INTERFACE = "EventInputs EventOutputs InputVars OutputVars InOutVars Sockets Plugs"
SUBAPP_INTERFACE = "SubAppEventInputs SubAppEventOutputs EventInputs EventOutputs InputVars OutputVars InOutVars Sockets Plugs"
NETWORK = "FB SubApp EventConnections DataConnections AdapterConnections Group"

# For each element: the elements in it that are understood or refused by name, and its attributes with a meaning.
SHAPES = {
    "FBType": ("InterfaceList BasicFB SimpleFB FBNetwork", ""),
    "SubAppType": ("SubAppInterfaceList InterfaceList SubAppNetwork", ""),
    "InterfaceList": (INTERFACE, ""),
    "SubAppInterfaceList": (SUBAPP_INTERFACE, ""),
    "EventInputs": ("Event", ""),
    "EventOutputs": ("Event", ""),
    "SubAppEventInputs": ("SubAppEvent Event", ""),
    "SubAppEventOutputs": ("SubAppEvent Event", ""),
    "InputVars": ("VarDeclaration", ""),
    "OutputVars": ("VarDeclaration", ""),
    "InternalVars": ("VarDeclaration FB", ""),
    "InternalConstVars": ("VarDeclaration", ""),
    "Event": ("With", "Type"),
    "SubAppEvent": ("With", "Type"),
    "With": ("", "Var"),
    "VarDeclaration": ("", "Type ArraySize InitialValue"),
    "BasicFB": ("InternalVars InternalConstVars InternalFB ECC Algorithm Method", ""),
    "SimpleFB": ("InternalVars InternalConstVars InternalFB ECState Algorithm Method", ""),
    "ECC": ("ECState ECTransition", ""),
    "ECState": ("ECAction", ""),
    "ECAction": ("", "Algorithm Output"),
    "ECTransition": ("", "Source Destination Condition"),
    "Algorithm": ("ST Other FBD LD", ""),
    "ST": ("", "Text"),
    "FBNetwork": (NETWORK, ""),
    "SubAppNetwork": (NETWORK, ""),
    "FB": ("Parameter", "Type"),
    "SubApp": ("Parameter SubAppInterfaceList InterfaceList SubAppNetwork FBNetwork", "Type"),
    "Parameter": ("", "Value"),
    "EventConnections": ("Connection", ""),
    "DataConnections": ("Connection", ""),
    "AdapterConnections": ("Connection", ""),
    "Connection": ("", "Source Destination"),
    "System": ("Application Device Mapping", ""),
    "Application": ("SubAppNetwork FBNetwork", ""),
    "Device": ("Parameter Resource FBNetwork", "Type"),
    "Resource": ("Parameter FBNetwork", "Type"),
    "Mapping": ("", "From To"),
}


def examine(element, findings):
    """Refuses elements that are not understood, and tells attributes that are not, in this element and all within it."""
    waiting = [element]
    while waiting:
        it = waiting.pop()
        if it.tag not in SHAPES:
            continue
        children, attributes = SHAPES[it.tag]
        for name, value in it.attributes.items():
            if name not in DRAWING and name not in NAMED and name not in attributes.split() and value:
                findings.note(it.place, it.subject, f"its attribute {name}={value!r} is left out")
        for child in it.children:
            if child.tag in children.split():
                waiting.append(child)
            elif child.tag == "Attribute":
                tell_attribute(it, child, findings)
            elif child.tag not in IGNORED:
                findings.refuse(child.place, child.subject, f"this element of {it.subject} has no counterpart", "remove it, or express it in another way")


def tell_attribute(element, child, findings):
    name = child.get("Name")
    if not name.startswith(QUIET_ATTRIBUTES) and not name.startswith("Fbr"):
        findings.note(child.place, element.subject, f"its Attribute {name} is left out")
