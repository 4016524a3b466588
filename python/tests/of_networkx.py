"""What graphs of networkx give, by name: each public method, and algorithms of each sort; such graphs by networkx's own calls."""
import json
import random
import warnings

from support import optional

networkx = optional("networkx")
# What is the same for every graph of a class, whatever it has.
OF_CLASSES = {"is_directed", "is_multigraph", "to_directed_class", "to_undirected_class", "name"}


def degrees(name):
    return lambda g, a, b: [call() for call in (
        lambda: getattr(g, name), lambda: getattr(g, name)([a, b]), lambda: getattr(g, name)(weight="weight"),
        lambda: getattr(g, name)(a), lambda: getattr(g, name)[b], lambda: len(getattr(g, name)))]


def edges(name):
    more = {"keys": True} if name else {}
    return lambda g, a, b: [
        getattr(g, name), getattr(g, name)(data=True), getattr(g, name)([a, b], data="weight", default=0), len(getattr(g, name)),
        getattr(g, name)(data=True, **(more if g.is_multigraph() else {}))]


# By the name of each public method or property what it gives; `a` and `b` are nodes.
METHODS = {
    "adj": lambda g, a, b: [g.adj, g.adj[a], g[b], list(g), len(g), a in g, "nobody" in g, [] in g],
    "adjacency": lambda g, a, b: [dict(g.adjacency())], "succ": lambda g, a, b: [g.succ, g.succ[a]],
    "pred": lambda g, a, b: [g.pred, g.pred[a]], "copy": lambda g, a, b: [g.copy(), g.copy(as_view=True)],
    **{it: degrees(it) for it in ("degree", "in_degree", "out_degree")},
    **{it: edges(it) for it in ("edges", "in_edges", "out_edges")},
    "edge_subgraph": lambda g, a, b: [g.edge_subgraph(sorted(g.edges)[:3])],
    "get_edge_data": lambda g, a, b: [g.get_edge_data(it, other, default=7) for it in g for other in (a, b, "nobody")],
    "has_edge": lambda g, a, b: [g.has_edge(it, other) for it in [*g, "nobody"] for other in (a, b, "nobody")],
    "has_node": lambda g, a, b: [g.has_node(it) for it in (a, "nobody", [], None)],
    "has_predecessor": lambda g, a, b: [g.has_predecessor(it, a) for it in g],
    "has_successor": lambda g, a, b: [g.has_successor(a, it) for it in g],
    "nbunch_iter": lambda g, a, b: [list(g.nbunch_iter()), list(g.nbunch_iter([b, a, "nobody"])), list(g.nbunch_iter(a))],
    "neighbors": lambda g, a, b: [set(g.neighbors(a))], "predecessors": lambda g, a, b: [set(g.predecessors(a))],
    "successors": lambda g, a, b: [set(g.successors(a))], "new_edge_key": lambda g, a, b: [g.new_edge_key(a, b)],
    "nodes": lambda g, a, b: [list(g.nodes), g.nodes(data=True), g.nodes[a], len(g.nodes), g.nodes.data("x", 5)],
    "number_of_edges": lambda g, a, b: [g.number_of_edges(), *(g.number_of_edges(a, it) for it in g)],
    "number_of_nodes": lambda g, a, b: [g.number_of_nodes()], "order": lambda g, a, b: [g.order()],
    "reverse": lambda g, a, b: [g.reverse(), g.reverse(copy=False)],
    "size": lambda g, a, b: [g.size(), g.size("weight"), g.size(weight="recent")],
    "subgraph": lambda g, a, b: [g.subgraph([a, b, "nobody"]), g.subgraph([a, b]).copy()],
    "to_directed": lambda g, a, b: [g.to_directed(), g.to_directed(as_view=True)],
    "to_undirected": lambda g, a, b: [g.to_undirected(as_view=True), networkx.Graph(g).number_of_edges()],
    **{it: lambda g, a, b, it=it: [getattr(g, it)()] for it in OF_CLASSES - {"name"}}, "name": lambda g, a, b: [g.name, g.graph],
}


def plain(found):
    """What was given as plain values; edges in no order, since versions have their own."""
    if isinstance(found, networkx.Graph):
        return type(found).__name__.replace("Held", ""), found.graph, plain(dict(found.nodes)), plain(found.edges(data=True))
    if isinstance(found, dict) or hasattr(found, "items") and not hasattr(found, "dtype"):
        return {key: plain(it) for key, it in found.items()}
    if isinstance(found, float):
        return float(f"{found:.8g}")
    if isinstance(found, (tuple, list)):
        return type(found)(map(plain, found))
    if hasattr(found, "toarray") or hasattr(found, "tolist"):
        return plain((found.toarray() if hasattr(found, "toarray") else found).tolist())
    return sorted(map(plain, found), key=str) if hasattr(found, "__iter__") and not isinstance(found, str) else found


def parts(found):
    return sorted(sorted(it) for it in found)


def undirected(graph):
    return networkx.Graph(graph)


# By name what algorithms give; `a` and `b` are nodes. Those in NUMERIC need numpy and scipy.
ALGORITHMS = {
    "levels": lambda g, a, b: networkx.single_source_shortest_path_length(g, a),
    "length": lambda g, a, b: networkx.shortest_path_length(g, a, b), "has_path": lambda g, a, b: networkx.has_path(g, a, b),
    "dijkstra": lambda g, a, b: networkx.single_source_dijkstra_path_length(g, a),
    "all pairs": lambda g, a, b: dict(networkx.all_pairs_dijkstra_path_length(g)),
    "between two": lambda g, a, b: networkx.bidirectional_dijkstra(g, a, b)[0],
    "bellman_ford": lambda g, a, b: networkx.single_source_bellman_ford_path_length(g, a),
    "astar": lambda g, a, b: networkx.astar_path_length(g, a, b),
    "floyd_warshall": lambda g, a, b: networkx.floyd_warshall(g),
    "weakly connected": lambda g, a, b: parts(networkx.weakly_connected_components(g)),
    "strongly connected": lambda g, a, b: parts(networkx.strongly_connected_components(g)),
    "attracting": lambda g, a, b: parts(networkx.attracting_components(g)),
    "condensation": lambda g, a, b: networkx.condensation(g).size(), "core_number": lambda g, a, b: networkx.core_number(g),
    "k_core": lambda g, a, b: networkx.k_core(g, 3), "clustering": lambda g, a, b: networkx.clustering(g),
    "clustering weighted": lambda g, a, b: networkx.clustering(g, weight="weight"),
    "triangles": lambda g, a, b: networkx.triangles(undirected(g)),
    "squares": lambda g, a, b: networkx.square_clustering(undirected(g)),
    "transitivity": lambda g, a, b: networkx.transitivity(undirected(g)),
    "closeness": lambda g, a, b: networkx.closeness_centrality(g),
    "closeness weighted": lambda g, a, b: networkx.closeness_centrality(g, distance="weight"),
    "harmonic": lambda g, a, b: networkx.harmonic_centrality(g, distance="weight"),
    "betweenness": lambda g, a, b: networkx.betweenness_centrality(g, weight="weight"),
    "of edges": lambda g, a, b: networkx.edge_betweenness_centrality(g), "load": lambda g, a, b: networkx.load_centrality(g),
    "degrees": lambda g, a, b: [networkx.degree_centrality(g), networkx.in_degree_centrality(g),
                                networkx.out_degree_centrality(g), networkx.degree_histogram(g)],
    "average degree": lambda g, a, b: networkx.average_neighbor_degree(g, weight="weight"),
    "reaching": lambda g, a, b: networkx.global_reaching_centrality(g, weight="weight"),
    "constraint": lambda g, a, b: networkx.constraint(g, weight="weight"),
    "dispersion": lambda g, a, b: networkx.dispersion(undirected(g)), "census": lambda g, a, b: networkx.triadic_census(g),
    "reciprocity": lambda g, a, b: [networkx.overall_reciprocity(g), networkx.reciprocity(g, a)],
    "density": lambda g, a, b: [networkx.density(g), networkx.number_of_selfloops(g), networkx.is_weighted(g),
                                networkx.is_directed_acyclic_graph(g), networkx.is_eulerian(g)],
    "isolates": lambda g, a, b: list(networkx.isolates(g)), "descendants": lambda g, a, b: networkx.descendants(g, a),
    "ancestors": lambda g, a, b: networkx.ancestors(g, a), "bfs": lambda g, a, b: set(networkx.bfs_tree(g, a)),
    "dfs": lambda g, a, b: set(networkx.dfs_preorder_nodes(g, a)), "ego": lambda g, a, b: networkx.ego_graph(g, a, 2),
    "closure": lambda g, a, b: networkx.transitive_closure(g).size(), "line": lambda g, a, b: networkx.line_graph(g).size(),
    "complement": lambda g, a, b: networkx.complement(g).size(), "compose": lambda g, a, b: networkx.compose(g, g.reverse()),
    "relabelled": lambda g, a, b: networkx.relabel_nodes(g, {a: "new"}),
    "flow": lambda g, a, b: networkx.maximum_flow_value(g, a, b, capacity="weight"),
    "cut": lambda g, a, b: networkx.minimum_cut_value(g, a, b, capacity="weight"),
    "connectivity": lambda g, a, b: [networkx.node_connectivity(g, a, b), networkx.edge_connectivity(g, a, b)],
    "tree": lambda g, a, b: networkx.minimum_spanning_tree(undirected(g)).size(),
    "efficiency": lambda g, a, b: networkx.global_efficiency(undirected(g)),
    "modularity": lambda g, a, b: networkx.community.modularity(g, [set(list(g)[:7]), set(list(g)[7:])], weight="weight"),
    "louvain": lambda g, a, b: len(networkx.community.louvain_communities(g, weight="weight", seed=1)) > 0,
    "cycles": lambda g, a, b: networkx.simple_cycles(g.subgraph(list(g)[:9])), "voterank": lambda g, a, b: networkx.voterank(g),
    "same": lambda g, a, b: networkx.is_isomorphic(g, g.copy()), "rows": lambda g, a, b: networkx.to_dict_of_dicts(g),
    "list": lambda g, a, b: networkx.to_edgelist(g), "lines": lambda g, a, b: networkx.generate_edgelist(g, data=["weight"]),
    "json": lambda g, a, b: len(json.dumps(networkx.adjacency_data(g))),
    "cytoscape": lambda g, a, b: len(str(networkx.cytoscape_data(g))),
    "graphml": lambda g, a, b: len("".join(networkx.generate_graphml(g))),
    "gml": lambda g, a, b: sorted(networkx.generate_gml(g)),
    "pagerank": lambda g, a, b: networkx.pagerank(g), "array": lambda g, a, b: networkx.to_numpy_array(g),
    "matrix": lambda g, a, b: networkx.adjacency_matrix(g), "hits": lambda g, a, b: sorted(networkx.hits(g)[0]),
    "assortativity": lambda g, a, b: networkx.degree_pearson_correlation_coefficient(g),
    "katz": lambda g, a, b: networkx.katz_centrality_numpy(g, alpha=0.01), "layout": lambda g, a, b: networkx.circular_layout(g),
}
NUMERIC = {"clustering weighted", "pagerank", "array", "matrix", "hits", "assortativity", "katz", "layout"}


def own(names, rows, is_multi, **about):
    """The graph that networkx's own calls make of rows of kind, source, target, weight, first and recent."""
    graph = (networkx.MultiDiGraph if is_multi else networkx.DiGraph)(**about)
    graph.add_nodes_from(names)
    for kind, source, target, weight, first, recent in rows:
        graph.add_edge(source, target, *([kind] if is_multi else []), kind=kind, weight=weight, first=first, recent=recent)
    return graph


def said(call, *given):
    """What a call gives as plain values, or the name of what it raises."""
    try:
        with warnings.catch_warnings():
            warnings.simplefilter("ignore")
            return plain(call(*given))
    except (networkx.NetworkXException, ArithmeticError, LookupError, NotImplementedError, TypeError, ValueError) as fault:
        return f"{type(fault).__name__}: {fault}"


def transfers(seed, scale=1):
    """Rows of a random graph without loops: of two kinds with the same names, of which most edges are of the first."""
    random_, found = random.Random(seed), {}
    for at in range(110):
        kind, source, target = "l" if at % 9 == 8 else "k", random_.randrange(24), int(24 * random_.random() ** 2)
        if source != target:
            found[kind, f"v{source}", f"v{target}"] = random_.randrange(1, 400) / scale
    return [(source, target, weight if scale > 1 else int(weight), at, kind) for at, ((kind, source, target), weight) in
            enumerate(found.items())]
