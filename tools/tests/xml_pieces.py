"""Small files in XML for the tests: what stands around the piece that a test is about."""

VERSION = '<VersionInfo Organization="" Version="1.0" Author="" Date="2026-01-12"/>'
REQ_CNF = '<EventInputs><Event Name="REQ"/></EventInputs><EventOutputs><Event Name="CNF"/></EventOutputs>'
CHART = """<ECC>
<ECState Name="START"/>
<ECState Name="ACT"><ECAction Output="CNF"/></ECState>
<ECTransition Source="START" Destination="ACT" Condition="REQ"/>
<ECTransition Source="ACT" Destination="START" Condition="1"/>
</ECC>"""


def block_type(name, interface=REQ_CNF, body=""):
    """An FBType: its interface begins in line 4, and its body in the line after the interface's end."""
    return f'<FBType Name="{name}">\n{VERSION}\n<InterfaceList>\n{interface}\n</InterfaceList>\n{body}\n</FBType>\n'


def basic(name, interface=REQ_CNF, algorithms="", internals="", chart=CHART):
    """A basic type; with the interface in one line, what is internal is in line 7, and the chart begins in line 8."""
    return block_type(name, interface, f"<BasicFB>\n{internals}\n{chart}\n{algorithms}\n</BasicFB>")


def structured(text):
    """An algorithm as 4diac IDE 2.x writes it; its first statement is in the second line after that of the element."""
    return f'<Algorithm Name="DO_IT" Comment=""><ST><![CDATA[\nALGORITHM DO_IT\n{text}\nEND_ALGORITHM\n]]></ST></Algorithm>'


def network(blocks="", events="", data=""):
    """The contents of a network: lists of NAME TYPE, or NAME TYPE PARAMETER VALUE .., and of SOURCE DESTINATION, one a line."""
    lines = []
    for name, kind, *given in (it.split() for it in blocks.strip().splitlines()):
        inner = "".join(f'<Parameter Name="{port}" Value="{value}"/>' for port, value in zip(given[::2], given[1::2]))
        lines.append(f'<FB Name="{name}" Type="{kind}" x="0" y="0">{inner}</FB>')
    for tag, listed in (("EventConnections", events), ("DataConnections", data)):
        lines.append(f"<{tag}>")
        lines += ['<Connection Source="{}" Destination="{}"/>'.format(*it.split()) for it in listed.strip().splitlines()]
        lines.append(f"</{tag}>")
    return "\n".join(lines)


def resource_system(*contents):
    """A system of one device with a resource R for each network; the first network begins in line 5."""
    resources = "\n".join(f'<Resource Name="R{at or ""}" Type="EMB_RES"><FBNetwork>\n{it}\n</FBNetwork></Resource>' for at, it in enumerate(contents))
    return f'<System Name="S">\n{VERSION}\n<Device Name="D" Type="FORTE_PC">\n{resources}\n</Device>\n</System>\n'


def application_system(network_text, mappings, devices="D1 D2"):
    """A system of devices with a resource R each, and an application A whose network begins in line 4; mappings are NAME DEVICE, one a line."""
    declared = "".join(f'<Device Name="{it}" Type="FORTE_PC"><Resource Name="R" Type="EMB_RES"><FBNetwork/></Resource></Device>\n' for it in devices.split())
    mapped = "".join('<Mapping From="A.{0}" To="{1}.R.{0}"/>\n'.format(*it.split()) for it in mappings.strip().splitlines())
    application = f'<Application Name="A"><SubAppNetwork>\n{network_text}\n</SubAppNetwork></Application>'
    return f'<System Name="S">\n{VERSION}\n{application}\n{declared}{mapped}</System>\n'


def second_resource(text, device):
    """The system with a resource Q in this device, before its R, to which the block C is mapped."""
    head = f'<Device Name="{device}" Type="FORTE_PC">'
    text = text.replace(head, f'{head}<Resource Name="Q" Type="EMB_RES"/>')
    return text.replace("</System>", f'<Mapping From="A.C" To="{device}.Q.C"/></System>')


def subapplication_type(name, events_in, events_out, inputs, network_text):
    """A SubAppType with an event input, an event output and a UINT input, whose network begins in line 2."""
    interface = f'<SubAppEventInputs><SubAppEvent Name="{events_in}"/></SubAppEventInputs>'
    interface += f'<SubAppEventOutputs><SubAppEvent Name="{events_out}"/></SubAppEventOutputs>'
    interface += f'<InputVars><VarDeclaration Name="{inputs}" Type="UINT"/></InputVars>'
    body = f"<SubAppInterfaceList>{interface}</SubAppInterfaceList><SubAppNetwork>\n{network_text}</SubAppNetwork>"
    return f'<SubAppType Name="{name}">{VERSION}{body}</SubAppType>'
