"""Graphs of networkx as held versions: what `tools/try-networkx` has networkx's own tests run over."""
from unittest import mock

from misteluk import Store, Units, graphs

WHOLE = None, 0, (1 << 63) - 1
PLAIN = "Graph", "DiGraph", "MultiGraph", "MultiDiGraph"


def stored(graph, edge_attrs=None, node_attrs=None, preserve_edge_attrs=False, preserve_node_attrs=False, **_):
    """A version with a graph's edges, as networkx has it; undirected by networkx's own view. Nodes and keys are what they were:
    the store has names for them. Raises `NotImplementedError` for what a store doesn't have."""
    is_multi = graph.is_multigraph()
    given = graph.edges(keys=True, data=True) if is_multi else graph.edges(data=True)
    rows = [(*it, told) if is_multi else (*it, 0, told) for *it, told in given]
    wanted = dict.fromkeys({it for *_, told in rows for it in told}) if preserve_edge_attrs else dict(edge_attrs or {})
    of_nodes = {it for told in graph._node.values() for it in told if preserve_node_attrs or it in (node_attrs or ())}
    if type(graph).__name__ not in PLAIN or len(wanted) > 1 or of_nodes:
        raise NotImplementedError("attributes of nodes, several of edges, or a class of its own")
    name = next(iter(wanted), None)
    weights = [told.get(name, wanted[name]) if wanted else 1 for *_, told in rows]
    scale = 1 if all(type(it) is int for it in weights) else 10 ** 6
    if any(type(it) not in (int, float) or abs(it) > 10 ** 5 or it * scale % 1 for it in weights):
        raise NotImplementedError("an edge's attribute that is no number of a store")
    labels, keys = list(graph), list(dict.fromkeys([it[2] for it in rows] or [0]))
    names, store = {it: f"n{at}" for at, it in enumerate(labels)}, Store(units=Units(scale, "number", decimals="float"))
    for kind in [f"k{at}" for at in range(len(keys) + is_multi)]:  # (one more has networkx's edges have keys)
        for word in ("insert", "remove"):
            for it in names.values():
                getattr(store, word)(kind, it, it)
            store.commit()
    for (source, target, key, _), weight in zip(rows, weights):
        store.insert(f"k{keys.index(key)}", names[source], names[target], weight)
    store.commit()
    return labelled(store.open(), graph, names, (*keys, None) if is_multi else (0,), name)


def labelled(session, graph, names, keys, attribute):
    """A session's graph, whose nodes and keys are a graph's, and whose edges have one attribute of this name, or none."""
    class Terms:
        knows = staticmethod(lambda _: True)
        asked = staticmethod(lambda node: terms.asked(names[node]))

    class Session(type(session)):
        _terms = Terms
        _all_names, _all_kinds = (lambda self: tuple(names)), (lambda self: keys)

    class Read(graphs.Read):
        def whole(self):
            with mock.patch.object(graphs, "Frozen", self.made):
                return super().whole()

        def _one(self, side, name):
            with mock.patch.object(graphs, "Frozen", self.made):
                return super()._one(side, name)

        made = staticmethod(lambda **told: Frozen({attribute: told["weight"]} if told and attribute else {}))
    terms, Frozen, Terms.units = session._terms, graphs.Frozen, session._terms.units
    made = Session(session.store, session._held)
    read = Read(made, made._scope("graph", *WHOLE)[0], WHOLE)
    view = (graphs.HeldMultiDiGraph if graph.is_multigraph() else graphs.HeldDiGraph)._of(read)
    view.graph = dict(graph.graph)
    view = view if graph.is_directed() else view.to_undirected(as_view=True)
    view.__networkx_backend__ = "misteluk"
    return view
