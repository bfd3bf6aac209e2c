#!/usr/bin/python3
"""A tank behind a unit of Modbus TCP, as the plant of examples/tank: io_plant.py PORT [SPEED [LEVEL]]

Holding register 0 is the level as its sensor gives it, 0 to 27648; the valve is coil 3, and discrete input 0 is the switch, which is on. With the valve open
the level rises by 20 thousandths a second, without it falls by 10, both times SPEED (1 if none is given). LEVEL is the first level in thousandths, 250 if none
is given. The other registers and coils up to 99 hold what is written."""
import contextlib
import sys
import threading
import time

from pymodbus.datastore import ModbusSequentialDataBlock, ModbusServerContext, ModbusSlaveContext
from pymodbus.server import StartTcpServer

FULL, STEP = 27648, 0.01
COILS, DISCRETE, HOLDING = 1, 2, 3


def fill(unit: ModbusSlaveContext, speed: float, level: float) -> None:
    """Lets the water in and out, for ever."""
    begun = time.monotonic()
    while True:
        time.sleep(STEP)
        now = time.monotonic()
        is_open = unit.getValues(COILS, 3, 1)[0]
        level = min(1000.0, max(0.0, level + (20 if is_open else -10) * speed * (now - begun)))
        begun = now
        unit.setValues(HOLDING, 0, [round(level * FULL / 1000)])


def main(port: str, speed: str = "1", level: str = "250") -> None:
    """Runs until it is killed, or ended by Ctrl-C."""
    blocks = {name: ModbusSequentialDataBlock(0, [0] * 100) for name in ("di", "co", "hr", "ir")}
    unit = ModbusSlaveContext(**blocks, zero_mode=True)
    unit.setValues(DISCRETE, 0, [1])
    unit.setValues(HOLDING, 0, [round(float(level) * FULL / 1000)])
    if float(speed) > 0:
        threading.Thread(target=fill, args=(unit, float(speed), float(level)), daemon=True).start()
    with contextlib.suppress(KeyboardInterrupt):
        StartTcpServer(context=ModbusServerContext(slaves=unit, single=True), address=("127.0.0.1", int(port)), allow_reuse_address=True)


if __name__ == "__main__":
    main(*sys.argv[1:])
