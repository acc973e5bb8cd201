"""tools/record, but that it waits at its end much longer for what it needs: what a test shows of it hangs on no machine's speed."""
import os
import sys

sys.path.insert(0, __file__.rsplit("/", 2)[0])

from new_enemy_tools.commands.running import run
from new_enemy_tools.recording import command, keeper, log_files

if __name__ == "__main__":
    command.ENTRY = os.path.abspath(__file__)
    command.CLOSING, keeper.LAST, log_files.PATIENCE = 300.0, 100.0, 100.0
    run(lambda: command.main(sys.argv[1:]))
