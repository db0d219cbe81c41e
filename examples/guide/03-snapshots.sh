keep snapshots
