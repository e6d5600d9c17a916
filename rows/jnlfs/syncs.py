"""Each sync of a run fails in turn; and the order in which jnlfs writes and syncs a disk.

tools/sync_rows.py has the runs. They need a C compiler as cc.
"""

import subprocess

import sync_rows
from program_rows import Wrong


# Of `jnlfs::serving::serve`.
# Of `jnlfs::serving::serve`, `jnlfs::making::make`, `jnlfs::disks::migrate`: each run of `jnlfs`
# makes its syncs; where one fails it says so, and no call that needs it is answered as done.
def each_sync_is_made_in_its_place(room):
    try:
        sync_rows.JnlfsRuns(room.programs["jnlfs"], room.folder).try_all()
    except (sync_rows.Wrong, subprocess.SubprocessError) as why:
        raise Wrong(str(why)) from None
