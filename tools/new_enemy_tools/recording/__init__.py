"""A recorder in front of OpenFGA or SpiceDB, which writes the log that an audit needs (docs/RECORDING.md)."""
