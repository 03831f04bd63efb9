"""A Channel Access server in front of `ioc`: see docs/CHANNEL_ACCESS.md.

`interface` says what is asked of an IOC, `child` asks it of a child process, `protocol` has the bytes of Channel Access, `values` the
forms of a value, `channels` the circuits of clients with their channels, `monitors` their subscriptions, `puts` their put callbacks,
`server` the searches, beacons and limits. `client` is a small client, and `drivers` has drivers of devices.
"""
