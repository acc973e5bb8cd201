"""Why there is no package."""
from new_enemy_tools.faults import ToolFault


class PackageFault(ToolFault):
    """What stands against a package; the tool that it ends says it, and has status 1 as tools/dev/release has."""

    status = 1
