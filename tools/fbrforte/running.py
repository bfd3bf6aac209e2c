"""Runs the gateway: one loop with all its sockets, the sums now and then, and the end."""
import asyncio
import functools
import signal

from fbrio.faults import Faults
from fbrio.telling import Teller, counted
from fbrseal.sealer import Sealer

from .checking import Plan
from .gateway import Gateway
from .lines import DeviceLine, address_text
from .links import DevicesLink, PublishLink, SubscribeLink
from .stamps import Stamps


class Running:
    """A gateway with its sockets. It is made in a running loop. The sums come every `every` seconds."""

    def __init__(self, plan: Plan, stamps: Stamps | None, sealer: Sealer | None, teller: Teller, every: float) -> None:
        self.plan, self.teller, self.every = plan, teller, every
        self.loop = asyncio.get_running_loop()
        self.over = asyncio.Event()
        self.faults = Faults(teller.tell, self.loop.time)
        table = plan.table
        self.gateway = Gateway(plan, stamps, teller.tell, self.to_device, lambda group, datagram: self.groups.send(group, datagram), sealer)
        self.devices = DevicesLink(table.bind, self.gateway.hear_device, self.faults)
        self.groups = PublishLink(table.interface, self.faults)
        self.heard = [
            SubscribeLink(it.line.group, table.interface, functools.partial(self.gateway.hear_group, it), self.faults)
            for it in plan.routes
            if not it.line.is_published
        ]
        self.extra = (f", boot {stamps.boot}" if stamps else "") + (f", sealed as number {sealer.keys.own}" if sealer else "")

    def to_device(self, device: DeviceLine, datagram: bytes) -> bool:
        """Sends to a device; whether the system took it."""
        return self.devices.send(f"sending to {device.name} at {address_text(device.address)}", device.address, datagram)

    def tell_sums(self) -> None:
        """Tells what came, went and was dropped, and what has failed."""
        for line in self.gateway.sums():
            self.teller.tell(line)
        for it in (self.devices, *self.heard):
            if it.lost:
                self.teller.tell(f"{it.name}: {counted(it.lost, 'datagram', 'datagrams')} came faster than they were read, and were dropped by the system")
        for name, trouble in sorted(self.faults.troubles.items()):
            self.teller.tell(f"{name}: {counted(trouble.faults, 'fault', 'faults')}, {counted(trouble.tries, 'failed attempt', 'failed attempts')}")

    async def run(self) -> None:
        """Runs until a signal ends it."""
        for it in (signal.SIGTERM, signal.SIGINT, signal.SIGHUP):
            self.loop.add_signal_handler(it, self.over.set)
        links = [self.devices, self.groups, *self.heard]
        for it in links:
            it.open()
        ways = f"{len(self.plan.routes) - len(self.heard)} to FORTE, {len(self.heard)} from FORTE"
        self.teller.tell(f"devices send to {address_text(self.plan.table.bind)}; {ways}{self.extra}")
        while not self.over.is_set():
            try:
                await asyncio.wait_for(self.over.wait(), self.every)
            except TimeoutError:
                self.tell_sums()
        for it in links:
            it.close()
        self.tell_sums()
        if self.teller.lost:
            self.teller.tell(f"{self.teller.lost} lines could not be written, since nobody read them")
