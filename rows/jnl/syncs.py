"""Each sync of a run fails in turn; and the order in which jnl writes and syncs a disk.

tools/sync_rows.py has the runs. They need a C compiler as cc.
"""

import subprocess

import sync_rows
from program_rows import Wrong


# Of `journal_program::Settled::mended`, `journal_program::DiskToLabel::grow`,
# `jnl::serving::serve`.
# Of `jnl::serving::serve`, `jnl::disks::create`, `jnl::disks::seal`: each run of `jnl` makes its
# syncs; no commit whose sync failed is answered as stable, and what was committed before a stop is
# on the device.
def each_sync_is_made_in_its_place(room):
    try:
        sync_rows.JnlRuns(room.programs["jnl"], room.folder).try_all()
    except (sync_rows.Wrong, subprocess.SubprocessError) as why:
        raise Wrong(str(why)) from None
