"""Graphs of graph-tool: loads, and what a version becomes."""
import unittest

from support import Case, feed_of, optional

from misteluk import Columns, Units, errors

graph_tool = optional("graph_tool")


@unittest.skipUnless(graph_tool, "graph_tool is not there")
class OfGraphTool(Case):
    def graph(self, *edges, directed=True, names=(), **properties):
        """A graph with edges as rows of numbers, and properties of edges as their type and values."""
        graph = graph_tool.Graph(directed=directed)
        graph.add_edge_list(edges)
        if names:
            graph.vp["name"] = graph.new_vp("string", vals=names)
        for name, (sort, values) in properties.items():
            graph.ep[name] = graph.new_ep(sort, vals=values)
        return graph

    def test_graph_tool(self):
        """Names, kinds, weights and times are properties, or numbers and the usual; an undirected edge is one either way."""
        graph = self.graph((0, 1), (2, 1), (0, 0))
        self.assertEqual([it[1:] for it in feed_of(graph).rows], [
            ("link", "0", "1", "1", "0"), ("link", "0", "0", "1", "0"), ("link", "2", "1", "1", "0")])
        graph = self.graph((0, 1), (2, 1), names=["a", "Иванов Пётр", "c"], weight=("double", [2.5, 3]), kind=("string", "kl"),
                           day=("string", ["2024-05-01", "2024-05-02"]))
        self.assertEqual(list(feed_of(graph, columns=Columns(time="day")).rows), [
            (1, "k", "a", "Иванов Пётр", "2.5", "2024-05-01"), (2, "l", "c", "Иванов Пётр", "3", "2024-05-02")])
        both = self.graph((0, 1), (2, 2), directed=False)
        self.assertEqual([it[2:4] for it in feed_of(both).rows], [("0", "1"), ("1", "0"), ("2", "2")])
        self.assertEqual([it[2:4] for it in feed_of(both, both_ways=False).rows], [("0", "1"), ("2", "2")])

    def test_a_view(self):
        """Of some vertices and edges alone; vertices without an edge are told."""
        graph = self.graph((0, 1), (1, 2), (2, 3), weight=("long", [5, 6, 7]))
        view = graph_tool.GraphView(graph, vfilt=lambda it: int(it) > 0, efilt=lambda it: graph.ep["weight"][it] < 7)
        with self.assertWarnsRegex(errors.LeftOut, "1 node of the graph, '3', has no edge"):
            self.assertEqual([it[2:5] for it in feed_of(view).rows], [("1", "2", "6")])
        graph.vp["name"] = graph.new_vp("string", vals=["a", "b", "b", "c"])
        self.refused(errors.FeedFault, "graph: two vertices have one name: give them others (graph.vp['name'])",
                     lambda: feed_of(graph))

    def test_it_comes_back(self):
        """With kinds, names without an edge in their places, decimals and dates; also by way of a GraphML file."""
        units = Units(weight_scale=100, times="iso")
        store = self.store(units=units)
        store.add("road", "a & b", "Иванов", "2.50", "2024-03-04")
        store.add("rail", "Иванов", "a & b", 7, "2024-03-05T12:00:00.25+01:00")
        store.add("rail", "x", "y", 7)
        store.remove("rail", "x", "y")
        store.commit()
        wanted, graph = list(store.open().edges()), store.open().edges().to_graph_tool()
        self.assertEqual([graph.vp["name"][it] for it in range(4)], ["a & b", "Иванов", "x", "y"])
        graph.save(str(self.room / "graph.graphml"))
        for given in (graph, graph_tool.load_graph(str(self.room / "graph.graphml"))):
            copy = self.store(units=units)
            with self.assertWarns(errors.LeftOut):
                copy.load(given, by="set")
            self.assertEqual(list(copy.open().edges()), wanted)


if __name__ == "__main__":
    unittest.main()
