"""Sets the current of examples/heater.db with pyepics, and prints what comes of it.

    bin/ioc-ca examples/heater.db --allow-write heater:current &
    export EPICS_CA_ADDR_LIST=127.0.0.1 EPICS_CA_AUTO_ADDR_LIST=NO
    /usr/bin/python3 examples/channel_access/heater.py
"""
import time

import epics

told = []
current = epics.PV("heater:current", form="ctrl", callback=lambda value, severity, **_: told.append((value, severity)))
given = epics.PV("heater:current.OVAL")
display = epics.PV("heater:display")
for channel in current, given, display:
    channel.wait_for_connection(10)
print("the current has", current.precision, "digit, from", current.lower_ctrl_limit, "to", current.upper_ctrl_limit, current.units)
print("the display may be written:", display.write_access)
while not told:
    time.sleep(0.01)

# Each put waits until the record has been processed. Six amperes are the most, and a step is one at most.
for amperes in 9, 9, 0.5:
    current.put(amperes, wait=True, timeout=10)
    print("asked for", amperes, "- VAL is", current.get(as_string=True, use_monitor=False), "- OVAL is", given.get(use_monitor=False))

# The monitor tells of changes: of the value, and of the alarm that a record has before it is processed.
while told[-1][0] != 0.5:
    time.sleep(0.01)
print("told:", told)
