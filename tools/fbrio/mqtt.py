"""MQTT: through Debian's python3-paho-mqtt, whose clients have threads of their own and connect again by themselves, after waits from 1 s to 30 s.

One connection takes the INPUTs and the OUTPUTs without `safe`. Each OUTPUT with `safe` has a connection of its own whose last will is its safe value, so that
the broker itself publishes it when the companion dies. A payload is the values in decimal with a space between them, as `serve` writes them: `1`, `0 17`."""
import threading

from .bus import LONGEST_WAIT, Ear
from .lines import Broker, InputLine, OutputLine
from .values import Misfit, Values, read_values

KEEPALIVE = 5


def payload(values: Values) -> str:
    """Values as a payload."""
    return " ".join(map(str, values))


def values_in(line: InputLine, message: bytes) -> Values:
    """The values in a payload, with spaces or commas between them; none of an EVENT, whatever its payload. Misfit where they are none of its types."""
    if not line.types:
        return ()
    return read_values(line.types, message.decode("utf-8", "replace").replace(",", " ").split())


class Link:
    """One connection to the broker. `on_up` and `on_down` are called with it when it has come and when it has gone, or a try has failed."""

    def __init__(self, broker: Broker, inputs: list[InputLine], outputs: list[OutputLine], bus: "MqttBus") -> None:
        from paho.mqtt import client as paho

        self.inputs, self.outputs, self.bus, self.paho = inputs, outputs, bus, paho
        self.lock = threading.Lock()
        self.wanted: dict[OutputLine, Values] = {}
        self.is_up = False
        self.client = paho.Client(clean_session=True)
        if broker.user:
            with open(broker.password_file, encoding="utf-8") as file:
                self.client.username_pw_set(broker.user, file.read().strip())
        for line in outputs:
            if line.safe is not None:
                self.client.will_set(line.at.topic, payload(line.safe), qos=1, retain=line.at.is_retained)
        self.client.reconnect_delay_set(1, int(LONGEST_WAIT))
        self.client.on_connect, self.client.on_disconnect = self.connected, self.disconnected
        self.client.on_connect_fail, self.client.on_message = self.not_connected, self.heard
        self.client.connect_async(broker.host, broker.port, keepalive=KEEPALIVE)

    def start(self) -> None:
        """Connects in a thread of paho."""
        self.client.loop_start()

    def connected(self, client, userdata, flags, code: int) -> None:
        """The broker has answered: OUTPUTs are published as they are to be, and INPUTs are subscribed."""
        if code != 0:
            self.bus.down(self, f"the broker refused the connection: {self.paho.connack_string(code)}")
            return
        self.bus.up(self)
        for topic in {it.at.topic for it in self.inputs}:
            client.subscribe(topic, qos=1)
        with self.lock:
            self.is_up = True
            for line, values in self.wanted.items():
                self.publish(line, values)

    def disconnected(self, client, userdata, code: int) -> None:
        """The connection has gone."""
        with self.lock:
            self.is_up = False
            self.wanted = {line: values for line, values in self.wanted.items() if line.types}
        if code != 0:
            self.bus.down(self, "connection lost")

    def not_connected(self, client, userdata) -> None:
        """A try to connect has failed."""
        self.bus.down(self, "cannot connect")

    def heard(self, client, userdata, message) -> None:
        """A message has come. A retained one tells how things are, and is no edge."""
        for line in self.inputs:
            if line.at.topic == message.topic and not (message.retain and line.queue is not None):
                try:
                    self.bus.ear.came(line, values_in(line, message.payload))
                except Misfit as why:
                    self.bus.ear.misfit(line, str(why))

    def put(self, line: OutputLine, values: Values) -> None:
        """Publishes at once if it is connected, else when it is. What was not published of an EVENT is not made up for."""
        with self.lock:
            if line.types:
                self.wanted[line] = values
            if self.is_up:
                self.publish(line, values)

    def publish(self, line: OutputLine, values: Values) -> None:
        """Publishes once (quality of service 0): what gets lost with a connection is published anew by the next."""
        if self.client.publish(line.at.topic, payload(values), qos=0, retain=line.at.is_retained).rc == self.paho.MQTT_ERR_SUCCESS:
            self.bus.ear.was_put(line)

    def finish(self) -> None:
        """Sends what waits, and ends."""
        self.client.disconnect()
        self.client.loop_stop()


class MqttBus:
    """All connections to the broker. A fault begins when one of them is down, and is over when all are up."""

    def __init__(self, broker: Broker, inputs: list[InputLine], outputs: list[OutputLine], ear: Ear) -> None:
        self.name, self.ear = broker.name, ear
        self.lock = threading.Lock()
        self.failing: set[Link] = set()
        shared = [it for it in outputs if it.safe is None]
        self.links = [Link(broker, [], [it], self) for it in outputs if it.safe is not None]
        if inputs or shared:
            self.links.append(Link(broker, inputs, shared, self))
        self.link_of = {line: link for link in self.links for line in link.outputs}
        self.enders: list[threading.Thread] = []

    def start(self) -> None:
        """Connects."""
        for it in self.links:
            it.start()

    def down(self, link: Link, why: str) -> None:
        """A connection is down: INPUTs get what they are to have meanwhile."""
        with self.lock:
            is_first = link not in self.failing
            self.failing.add(link)
        self.ear.failed(self.name, why)
        for line in link.inputs if is_first else ():
            if line.lost is not None:
                self.ear.came(line, line.lost)

    def up(self, link: Link) -> None:
        """A connection is up."""
        with self.lock:
            self.failing.discard(link)
            if self.failing:
                return
        self.ear.works(self.name)

    def put(self, line: OutputLine, values: Values) -> None:
        """The OUTPUT is to have these values."""
        self.link_of[line].put(line, values)

    def finish(self) -> None:
        """Ends each connection in a thread, since that waits for paho's."""
        self.enders = [threading.Thread(target=it.finish, daemon=True) for it in self.links]
        for it in self.enders:
            it.start()

    def join(self, patience: float) -> None:
        """Waits for the ends."""
        for it in self.enders:
            it.join(patience)
