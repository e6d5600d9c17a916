"""Each sync of a run fails in turn; and the order in which jtool writes and syncs a disk.

tools/sync_rows.py has the runs. They need a C compiler as cc.
"""

import subprocess

import sync_rows
from program_rows import Wrong


# Of `journal_program::Settled::mended`.
# Of `journal_service::serve`, `journal_service::format`, `journal_service::check`,
# `journal_service::migrate`: each run makes its syncs, and where one fails it ends before it says
# that the disk may be used; one that opens the disk to write it mends it first.
def each_sync_is_made_in_its_place(room):
    try:
        sync_rows.JtoolRuns(room.programs["jtool"], room.folder).try_all()
    except (sync_rows.Wrong, subprocess.SubprocessError) as why:
        raise Wrong(str(why)) from None
