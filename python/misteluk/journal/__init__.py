"""A store's file: one SQLite database that has every batch, so that a store survives its process.

Choices:

- SQLite does what a log of one's own would do again: appends that are whole or not there, torn tails, syncs of the file and its
  folder, readers beside a writer, tools to look inside. What it doesn't see are damaged pages and a damaged -wal: so each batch
  has a sum over itself and the sum before it, the head has the last one, each base has a digest, and the -wal is looked at before
  SQLite opens it.
- A batch is on the disk before the engine accepts it, so that a session can't show what a crash would lose. The engine met every
  refusal by then: nothing refused is in the file, and where that takes no more there is nothing to undo. A crash between the two
  leaves a batch that nobody was told of, and the next opening has it.
- The file has what was accepted and in which order, and nothing of blocks: a replay has as many as it needs, whatever is said.
- What an endless store drops is a mark of the batch before which it did so: a replay drops at the same place.
- A replay has other batches than those in the file, as large as cost least, since operations leave the same however they are
  parted; what a batch did is found again only where somebody may ask. A first load is the other way round: the store opens with
  it in one step, and the file has batches of it, in one write.
- What producers and keys sent, and how far feeds are in, has no table of its own: batches and bases have it, under their sums.
"""
