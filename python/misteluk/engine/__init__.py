"""The store behind the client: the library, in this process.

Choices:

- There is one engine here; that of a server's client stands in its place (`serve.client`). A program through pipes has no call
  for a vertex's neighbors, and shares nothing with the tests that compare the client with it (`tests/harness.py`).
- Operations are columns: numbers in a dictionary of names, as the library takes them. They become records only for a server, a
  script and a saved file.
- A load applies nothing before the check of its feed is done.
- A table is a mapping and not a dict. It holds the engine's arrays, and makes a dict when somebody asks by name.
- Whether an interrupted call was made the library's count of versions says. That a caller has a result is noted by the last step
  before a `return`, after which no Python looks for signals (`guard.noting`). A finalizer's note is made by code in C, because
  an interrupt in a finalizer is lost.
- An empty store opens with a load's columns in one call, which makes version 0 of all its rows: a part of the time and memory of
  batches. What they would have counted follows from how many edges there are, where no operation takes one away or may overflow;
  else it has batches. Versions are counted as if it had.
- A store in process grows by a copy. A desk has its blocks and limits from its opening on, and each block takes memory. So a
  store opens small, and a larger desk takes its place.
- A store renews itself only where the refused batch fits then, by count; else another desk gets the batch, and takes the place
  of the one in use once it has it. So a refused batch changes nothing.
"""
