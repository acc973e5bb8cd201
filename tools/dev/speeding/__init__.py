"""Logs by which the speed of an import is measured, and the measuring itself (tools/dev/import_speed)."""
