"""A monitor beside a recorder: it reads the log as it grows, has it audited, and tells what is found
(docs/MONITORING.md)."""
