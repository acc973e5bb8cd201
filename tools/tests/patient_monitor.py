"""tools/ne, but that a monitor may take much longer to end in order, and who gets its alerts to take them: what a test
shows of it hangs on no machine's speed."""
import sys

sys.path.insert(0, __file__.rsplit("/", 2)[0])

from new_enemy_tools.commands import ne
from new_enemy_tools.commands.running import run
from new_enemy_tools.monitoring import receivers, stopping

if __name__ == "__main__":
    stopping.GRACE, receivers.PATIENCE, receivers.COMMAND_PATIENCE = 300.0, 100.0, 300.0
    run(lambda: ne.main(sys.argv[1:]))
