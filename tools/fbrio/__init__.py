"""The companion of `fbr serve`: takes values from Modbus, MQTT and GPIO to INPUTs, and from OUTPUTs back to them. It is not proved, and decides nothing."""
