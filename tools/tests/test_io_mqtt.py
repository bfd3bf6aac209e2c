"""fbr-io with a broker: values in and out, and what happens when parts die."""
import os
import signal
import subprocess
import unittest

import io_parts as parts

TABLE = """
mqtt 127.0.0.1:{port}
watchdog 2s
INPUT 1 INT mqtt plant/level lost -1000
INPUT 2 INT,INT mqtt plant/limits
INPUT 3 BOOL mqtt plant/enable
OUTPUT 1 BOOL mqtt plant/valve retain safe FALSE
OUTPUT 2 INT mqtt plant/display
OUTPUT 3 BOOL,BOOL,BOOL mqtt plant/lamps retain safe FALSE,FALSE,TRUE
"""


@parts.needs("mosquitto", "mosquitto_sub", "mosquitto_pub", "paho.mqtt")
class ByMqtt(parts.Folder):
    """The tank by MQTT alone."""

    def setUp(self) -> None:
        super().setUp()
        self.at = self.broker()
        self.topics = self.messages(self.at.port)
        self.running = self.run_with(TABLE.format(port=self.at.port))
        self.assertTrue(parts.waited(lambda: "plant/valve 0" in self.topics.heard))

    def publish(self, topic: str, message: str) -> None:
        """A message from outside."""
        parts.publish(self.at.port, topic, message)

    def open_valve(self) -> None:
        """A level of 180 opens the valve of the tank."""
        self.publish("plant/enable", "TRUE")
        self.publish("plant/level", "5000")
        self.assertTrue(self.running.prints("write 1 1"), self.running.errors)

    def comes(self, *messages: str, patience: float = parts.LONGEST) -> None:
        """These are the next messages of the topic of the first one, in this order."""
        topic = messages[0].split()[0]
        found = lambda: [it for it in self.topics.heard if it.split()[0] == topic]  # noqa: E731
        came = parts.waited(lambda: found()[-len(messages) :] == list(messages), patience)
        self.assertTrue(came, (messages, self.topics.heard[-20:], self.running.errors[-20:]))

    def test_values_go_through(self) -> None:
        self.open_valve()
        self.comes("plant/display 180")
        self.comes("plant/valve 0", "plant/valve 1")
        self.publish("plant/limits", "100,150")
        self.assertTrue(self.running.prints("write 4 1 100 150"), self.running.errors)
        self.publish("plant/limits", "x")
        self.assertTrue(self.running.says("fbr-io: INPUT 2 from mqtt plant/limits: INT,INT needs 2 values, not 1; ignored, and further ones are only counted"))

    def test_serve_is_killed(self) -> None:
        self.open_valve()
        self.comes("plant/valve 0", "plant/valve 1")
        os.kill(self.running.device_process(), signal.SIGKILL)
        self.comes("plant/valve 1", "plant/valve 0")
        self.assertEqual(self.running.end(0), 128 + signal.SIGKILL)
        again = parts.Running(self.running.process.args[1:])
        self.addCleanup(again.end)
        self.assertTrue(again.says("receives at"))
        self.publish("plant/enable", "1")
        self.publish("plant/level", "5000")
        self.assertTrue(again.prints("write 1 1"), again.errors)
        self.comes("plant/valve 0", "plant/valve 0", "plant/valve 1")

    def test_serve_is_silent_and_comes_back(self) -> None:
        self.open_valve()
        device = self.running.device_process()
        os.kill(device, signal.SIGSTOP)
        self.comes("plant/valve 1", "plant/valve 0")
        self.assertTrue(self.running.says("fbr-io: no line from the device for 2 s: OUTPUTs are set to their safe values"))
        os.kill(device, signal.SIGCONT)
        self.comes("plant/valve 0", "plant/valve 1")
        self.assertTrue(self.running.says("fbr-io: the device responds again: OUTPUTs are set to what it wrote last"))

    def test_the_companion_stands_still(self) -> None:
        self.running.end()
        self.running = self.run_with(TABLE.format(port=self.at.port).replace(" lost -1000", ""))
        self.open_valve()
        self.comes("plant/valve 0", "plant/valve 1")
        self.running.process.send_signal(signal.SIGSTOP)
        self.comes("plant/valve 1", "plant/valve 0")
        self.running.process.send_signal(signal.SIGCONT)
        self.comes("plant/valve 0", "plant/valve 1")
        self.assertTrue(self.running.says("works again after "))
        self.assertEqual([it for it in self.running.errors if "no line from" in it], [])

    def test_the_companion_is_killed(self) -> None:
        self.open_valve()
        self.comes("plant/valve 0", "plant/valve 1")
        device = self.running.device_process()
        self.running.end(signal.SIGKILL)
        self.comes("plant/valve 1", "plant/valve 0")
        self.assertTrue(parts.waited(lambda: not os.path.exists(f"/proc/{device}")))

    def test_the_broker_is_killed(self) -> None:
        self.open_valve()
        self.at.kill()
        self.assertTrue(self.running.says(f"fbr-io: mqtt 127.0.0.1:{self.at.port}: connection lost; retrying"))
        # The level that is offered meanwhile is that of a broken wire: the tank closes its valve.
        self.assertTrue(self.running.prints("write 1 0"), self.running.errors)
        self.assertTrue(self.running.prints("write 3 0 0 1"), self.running.errors)
        self.at.start()
        self.topics = self.messages(self.at.port)
        self.comes("plant/valve 0")
        self.assertTrue(self.running.says(f"fbr-io: mqtt 127.0.0.1:{self.at.port}: works again after "))
        self.publish("plant/level", "5000")
        self.comes("plant/valve 0", "plant/valve 1")
        self.assertEqual(sum("connection lost" in it for it in self.running.errors), 1)

    def test_an_orderly_end(self) -> None:
        for how in (signal.SIGTERM, signal.SIGINT, signal.SIGHUP):
            with self.subTest(how):
                self.open_valve()
                self.comes("plant/valve 0", "plant/valve 1")
                self.assertEqual(self.running.end(how), 0)
                self.comes("plant/valve 1", "plant/valve 0")
                self.assertEqual(self.running.output[-1], "fired 0 received 2 denied 0 ran 9 sent 0 lost 0")
                self.assertEqual(
                    [it for it in self.running.errors if it.startswith(("fbr-io: INPUT", "fbr-io: OUTPUT"))],
                    [
                        "fbr-io: INPUT 1: 1 offer sent, 1 taken, 0 denied, 0 unanswered, 0 replaced",
                        "fbr-io: INPUT 2: 0 offers sent, 0 taken, 0 denied, 0 unanswered, 0 replaced",
                        "fbr-io: INPUT 3: 1 offer sent, 1 taken, 0 denied, 0 unanswered, 0 replaced",
                        "fbr-io: OUTPUT 1 to mqtt plant/valve: 1 write, 3 put",
                        "fbr-io: OUTPUT 2 to mqtt plant/display: 1 write, 1 put",
                        "fbr-io: OUTPUT 3 to mqtt plant/lamps: 0 writes, 2 put",
                    ],
                )
                self.running = self.run_with(TABLE.format(port=self.at.port))

    def test_nobody_reads_what_the_companion_prints(self) -> None:
        self.assertEqual(self.running.end(), 0)
        words = [parts.COMPANION, *self.words(self.table(TABLE.format(port=self.at.port)), "--verbose")]
        process = subprocess.Popen(words, stdin=subprocess.DEVNULL, stdout=subprocess.PIPE, stderr=subprocess.PIPE)
        self.addCleanup(process.communicate)
        self.addCleanup(process.kill)
        levels = "".join(f"{it}\n" for it in range(5000, 8000))
        source = [parts.broker_path("mosquitto_pub"), "-p", str(self.at.port), "-t", "plant/level", "-l", "-q", "1"]
        self.assertTrue(parts.waited(lambda: self.topics.heard.count("plant/lamps 0 0 1") >= 3))
        parts.publish(self.at.port, "plant/enable", "TRUE", "-r")
        for _ in range(4):
            subprocess.run(source, input=levels, text=True, check=True)
        self.assertTrue(parts.waited(lambda: self.publish("plant/level", "27000") or "plant/display 976" in self.topics.heard))
        self.comes("plant/valve 0", "plant/valve 1", "plant/valve 0")
        process.send_signal(signal.SIGTERM)
        self.assertEqual(process.wait(parts.LONGEST), 0)


@parts.needs("mosquitto", "mosquitto_passwd", "paho.mqtt")
class WithAPassword(parts.Folder):
    """A broker that wants a password."""

    def test_a_password_is_asked_for(self) -> None:
        hashed = f"{self.folder}/hashed"
        subprocess.run([parts.broker_path("mosquitto_passwd"), "-b", "-c", hashed, "plant", "right"], check=True)
        os.chmod(self.folder, 0o755)
        os.chmod(hashed, 0o644)
        port = self.broker("allow_anonymous false", f"password_file {hashed}").port
        for password in ("wrong", "right"):
            with open(f"{self.folder}/password", "w", encoding="utf-8") as file:
                file.write(password + "\n")
            text = f"mqtt 127.0.0.1:{port} user plant password-file {self.folder}/password\nOUTPUT 2 INT mqtt plant/display safe 0\n"
            running = self.run_with(text)
            refused = "the broker refused the connection: Connection Refused: not authorised.; retrying"
            if password == "wrong":
                self.assertTrue(running.says(f"fbr-io: mqtt 127.0.0.1:{port}: {refused}"), running.errors)
            self.assertEqual(running.end(), 0)
            puts = f"fbr-io: OUTPUT 2 to mqtt plant/display: 0 writes, {2 if password == 'right' else 0} put"
            self.assertTrue(puts in running.errors, running.errors)


if __name__ == "__main__":
    unittest.main()
