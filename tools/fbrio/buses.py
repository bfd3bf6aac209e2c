"""The buses that a table needs."""
from .bus import Bus, Ear
from .gpio import GpioBus
from .lines import Gpio, InputLine, Modbus, Mqtt, OutputLine, Table
from .modbus import ModbusBus
from .mqtt import MqttBus


def make_buses(table: Table, ear: Ear) -> tuple[list[Bus], dict[OutputLine, Bus]]:
    """A bus for each connection of Modbus, each chip and the broker; and the bus of each OUTPUT."""
    buses: list[Bus] = []
    of_outputs: dict[OutputLine, Bus] = {}

    def add(bus: Bus, lines: list[InputLine | OutputLine]) -> None:
        """A bus with its lines."""
        buses.append(bus)
        of_outputs.update({it: bus for it in lines if isinstance(it, OutputLine)})

    for make, place in ((ModbusBus, Modbus), (GpioBus, Gpio)):
        for name in dict.fromkeys(it.at.bus for it in table.ends if isinstance(it.at, place)):
            lines = [it for it in table.ends if isinstance(it.at, place) and it.at.bus == name]
            add(make(name, lines, ear), lines)
    inputs = [it for it in table.inputs if isinstance(it.at, Mqtt)]
    outputs = [it for it in table.outputs if isinstance(it.at, Mqtt)]
    if inputs or outputs:
        add(MqttBus(table.broker, inputs, outputs, ear), inputs + outputs)
    return buses, of_outputs
