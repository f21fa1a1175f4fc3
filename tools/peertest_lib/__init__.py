"""A conformance suite for the peer wire. tools/peertest is its command; docs/RIG.md says how it is used."""
