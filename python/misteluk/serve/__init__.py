"""One live graph for one feed and many analysts: a server over a store, and its clients.

Choices:

- A server's store is an engine of the client. So a session over HTTP is `Session` itself, and the tests of sessions run over a
  server too. Engines speak in columns of bytes; calls as JSON are for `curl` and other languages.
- Whoever commits a version holds it right away, so no question waits for the feed. A session is closed outside of the board's
  lock, because that waits for a batch that is being applied.
- Clients of one version share its hold. The library holds 16 versions of a desk: at the 17th the desk begins anew, and those
  that are held stay. So the newest has a place whatever clients hold.
- A connection is a stranger's until a request of it is let in. Strangers have 10 s, and the oldest makes room for who comes.
- A post is read by the feed's thread in slices, since Python's parsers of JSON keep its lock to the end of a text.
- At the end a save comes before all that may take long.
- Rows of one post that are several batches are no version until all are in, so nobody sees or saves a part of them.
- A silent client loses its hold, and only a request breaks the silence. So a notebook that was left open keeps no version, unless
  it asked for that; then a thread makes requests as long as the session is there.
- A feed is read by a process of its own, since Python runs one thread at a time: the server only applies its batches, by calls of
  C that let other threads run. Where that is killed, another one reads a file again from its beginning, and passes over the lines
  that are in: so it needs no place that every form and encoding of a feed would have to tell.
- Little questions are answered on the loop; so are tables of a version, once one of them was made. A client sorts by itself.
- A batch has a number, so one whose answer was lost is sent again and applied once.
- Questions over the whole graph have threads of their own, so a question for one edge doesn't wait for them. The server sets
  Python's switch between threads to half a millisecond; at the usual five the feed would have most turns.
- Without a token the `Host` must name this machine, because a browser may be led here under another name.
- A view runs in a frame that may run its own script only, known by its sum, and that can't ask the server anything.
- A lost answer is asked for again, of the same version; no part of it is kept to go on from.
- What a batch touched are the vertices that its rows name: that costs no look at the graph. A row that changed nothing names its
  ends too, and edges that expired name none.
- An event's id has the sum of its version's batch, where a store's file has that: it tells a version from another file's of the
  same number. So a reader resumes over a restart, and what isn't known is told as unknown, and never as nothing.
"""
