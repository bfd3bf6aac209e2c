"""The gateway between PUBLISH and SUBSCRIBE of 4diac FORTE and FBDK and the channels of `fbr serve`. It is not proved, and decides nothing."""
