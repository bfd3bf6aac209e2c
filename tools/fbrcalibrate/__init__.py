"""fbr-calibrate: what each thing that a device does takes at most on this machine."""
