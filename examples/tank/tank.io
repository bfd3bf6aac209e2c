# The tank behind a unit of Modbus, for tools/fbr-io: tools/tests/io_plant.py is such a unit (docs/TANK.md).
INPUT 1 INT modbus 127.0.0.1:5020 holding 40001 poll 250ms lost -1000
INPUT 3 BOOL modbus 127.0.0.1:5020 discrete 10001 poll 250ms changes
OUTPUT 1 BOOL modbus 127.0.0.1:5020 coil 3 safe FALSE
OUTPUT 2 INT modbus 127.0.0.1:5020 holding 10
OUTPUT 3 BOOL,BOOL,BOOL modbus 127.0.0.1:5020 coil 20 safe FALSE,FALSE,TRUE
